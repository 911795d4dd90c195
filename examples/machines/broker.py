#!/usr/bin/env python3
"""Sites over an MQTT broker on this machine's loopback.

    broker.py [--program PROGRAM] [--seconds T]

Starts mosquitto for itself, on a free port and without persistence, and then

1. three sites with journals, a pipeline `mosquitto_sub | PROGRAM site | mosquitto_pub -l` each, and callers of them, in a shell and here; one
   site is killed by signal 9 and started again from its journal; at the end the three journals are audited;
2. the counters of clients/c and clients/python together, whose sum has to be right;
3. for T seconds each, what one caller makes in a second, with and without journals: accesses that have their right, by a caller beside its
   site and by one whose asks go over the broker too; and stores to one byte by two sites in turn, each of which needs the page.

The status is 1 where anything is wrong. Needs the Debian packages that it names where one is missing."""
import argparse
import os
import shlex
import shutil
import signal
import socket
import subprocess
import sys
import tempfile
import threading
import time

HERE = os.path.dirname(os.path.abspath(__file__))
CLIENTS = os.path.join(HERE, '..', '..', 'clients')
sys.path.insert(0, os.path.join(CLIENTS, 'python'))

from leddwyfan import PAGE_BYTES, Site, end_process  # noqa: E402

PACKAGES = {'mosquitto': 'mosquitto', 'mosquitto_sub': 'mosquitto-clients', 'mosquitto_pub': 'mosquitto-clients', 'cc': 'gcc'}
SITES = 3
PAGES = 2
ANSWER_SECONDS = 1
LONGEST_SECONDS = 60
TIMES = 30


def stop_unless(condition, text):
    if not condition:
        sys.exit(f'broker.py: {text}')


def find_commands():
    """The commands' paths; mosquitto itself is where only root looks."""
    path = os.environ.get('PATH', '') + ':/usr/sbin:/sbin'
    found = {command: shutil.which(command, path=path) for command in PACKAGES}
    missing = sorted({PACKAGES[command] for command, where in found.items() if where is None})
    stop_unless(not missing, f'these Debian packages are missing: {" ".join(missing)}')
    return found


class Broker:
    """A broker for this run alone."""

    def __init__(self, command, folder):
        with socket.socket() as free:
            free.bind(('127.0.0.1', 0))
            self.port = free.getsockname()[1]
        config = os.path.join(folder, 'mosquitto.conf')
        with open(config, 'w', encoding='ascii') as file:
            file.write(f'listener {self.port} 127.0.0.1\nallow_anonymous true\npersistence false\nlog_type error\n')
        self.process = subprocess.Popen([command, '-c', config])
        self.options = ['-h', '127.0.0.1', '-p', str(self.port)]

    def wait(self):
        end = time.monotonic() + LONGEST_SECONDS
        while time.monotonic() < end and self.process.poll() is None:
            try:
                socket.create_connection(('127.0.0.1', self.port), 1).close()
                return
            except OSError:
                time.sleep(0.05)
        sys.exit('broker.py: mosquitto does not listen')

    def hear(self, topic):
        return ['mosquitto_sub', *self.options, '-t', topic]

    def say(self, topic):
        return ['mosquitto_pub', *self.options, '-t', topic, '-l']


class Pipeline:
    """`mosquitto_sub | WORDS | mosquitto_pub -l`."""

    def __init__(self, broker, topic, words, **options):
        self.hearing = subprocess.Popen(broker.hear(topic), stdin=subprocess.DEVNULL, stdout=subprocess.PIPE)
        self.process = subprocess.Popen(words, stdin=self.hearing.stdout, stdout=subprocess.PIPE, **options)
        self.saying = subprocess.Popen(broker.say(topic), stdin=self.process.stdout)
        self.hearing.stdout.close()
        self.process.stdout.close()

    def stop(self):
        """Ends the input: the rest ends behind it. Answers the status."""
        self.hearing.terminate()
        self.hearing.wait()
        status = self.process.wait(LONGEST_SECONDS)
        self.saying.wait(LONGEST_SECONDS)
        return status

    def kill(self):
        self.process.kill()
        self.stop()


class Caller:
    """A caller whose asks and answers go over the broker, with one ask at a time."""

    def __init__(self, broker, topic, name):
        self.name, self.asked = name, 0
        self.hearing = subprocess.Popen(broker.hear(topic), stdin=subprocess.DEVNULL, stdout=subprocess.PIPE)
        self.saying = subprocess.Popen(broker.say(topic), stdin=subprocess.PIPE)
        self.answers = {}
        self.changed = threading.Condition()
        threading.Thread(target=self.hear, daemon=True).start()

    def hear(self):
        for line in self.hearing.stdout:
            words = line.decode(errors='replace').split()
            if words[:1] == ['tell'] and len(words) > 3 and words[2].startswith(self.name):
                with self.changed:
                    self.answers[words[2]] = words[3:]
                    self.changed.notify()

    def say(self, line):
        self.saying.stdin.write(line.encode() + b'\n')
        self.saying.stdin.flush()

    def ask(self, site, words):
        """Asks, and asks again under another tag where no answer comes: what was asked may have been lost, and a load or store may be made
        twice. All sites are ticked, as what they said may have been lost."""
        end = time.monotonic() + LONGEST_SECONDS
        while time.monotonic() < end:
            self.asked += 1
            tag = f'{self.name}.{self.asked}'
            self.say(f'ask {site} {tag} {words}')
            with self.changed:
                if self.changed.wait_for(lambda: tag in self.answers, ANSWER_SECONDS):
                    return self.answers.pop(tag)
            for ticked in range(SITES):
                self.say(f'ask {ticked} tick tick')
        sys.exit(f'broker.py: site {site} gives no answer to {words}')

    def stop(self):
        end_process(self.saying)
        self.hearing.terminate()
        self.hearing.wait()


def site_words(options, site, sites=SITES, journal=None, begin=False):
    words = shlex.split(options.program) + ['site', '--sites', str(sites), '--me', str(site), '--preset', str(PAGES)]
    return words if journal is None else words + ['--journal', journal] + ['--new'] * begin


def call_in_shell(broker, topic):
    """A store by site 1 and a load by site 2, by a caller that is a shell."""
    script = '''
        ask() {{
            mosquitto_sub {0} -t {1} -W 20 2> /dev/null | grep -m 1 "^tell $1 $2 " & listener=$!
            sleep 0.5
            printf 'ask %s\\n' "$*" "0 t tick" "1 t tick" "2 t tick" | mosquitto_pub {0} -t {1} -l
            wait $listener
        }}
        ask 1 shell-a store 0 5 7
        ask 2 shell-b load 0 5
    '''.format(' '.join(broker.options), topic)
    told = subprocess.run(['sh', '-c', script], stdout=subprocess.PIPE, check=False).stdout.decode().splitlines()
    stop_unless(told == ['tell 1 shell-a stored', 'tell 2 shell-b byte 7'], f'the shell heard {told}')
    print('shell: ' + ', '.join(told))


def call_in_turn(caller, numbers):
    """Stores each number by one site, and loads it by the next."""
    for number in numbers:
        at, value = number % (PAGES * PAGE_BYTES), number % 256
        stop_unless(caller.ask(number % SITES, f'store 0 {at} {value}') == ['stored'], 'a store was refused')
        told = caller.ask((number + 1) % SITES, f'load 0 {at}')
        stop_unless(told == ['byte', str(value)], f'{value} was stored at {at}, and {told} is loaded')


def audit(options, journals):
    words = shlex.split(options.program) + ['audit', '--sites', str(len(journals))] + journals
    done = subprocess.run(words, stdout=subprocess.PIPE, check=False)
    told = done.stdout.decode().splitlines()
    stop_unless(done.returncode == 0 and told[:1] == ['audit yes'], f'the audit says {told}, with status {done.returncode}')
    print(', '.join(told))


def run_three_sites(options, broker, folder):
    journals = [os.path.join(folder, f'site-{site}.journal') for site in range(SITES)]
    pipelines = [Pipeline(broker, 'cluster', site_words(options, site, journal=journals[site], begin=True)) for site in range(SITES)]
    caller = Caller(broker, 'cluster', 'python')
    for site in range(SITES):
        caller.ask(site, 'tick')
    call_in_shell(broker, 'cluster')
    call_in_turn(caller, range(1000, 1000 + TIMES))
    pipelines[1].kill()
    pipelines[1] = Pipeline(broker, 'cluster', site_words(options, 1, journal=journals[1]))
    call_in_turn(caller, range(2000, 2000 + TIMES))
    told = caller.ask(2, 'load 0 5')
    stop_unless(told == ['byte', '7'], f'what the shell stored was lost: {told}')
    caller.stop()
    for site, pipeline in enumerate(pipelines):
        status = pipeline.stop()
        stop_unless(status == 0, f'site {site} ended with status {status}')
    print(f'three sites: {4 * TIMES} loads and stores, and site 1 was killed between them')
    audit(options, journals)


def run_counters(options, broker, folder):
    """The two counters, of which one is in C."""
    counter = os.path.join(folder, 'counter')
    sources = [os.path.join(CLIENTS, 'c', name) for name in ('counter.c', 'leddwyfan.c', 'seal.c')]
    subprocess.run(['cc', '-std=c11', '-O2', '-pthread', '-o', counter, *sources], check=True)
    commands = ([counter], [sys.executable, os.path.join(CLIENTS, 'python', 'counter.py')])
    journals = [os.path.join(folder, f'counter-{me}.journal') for me in range(2)]
    pipelines = [Pipeline(broker, 'counter', words + ['-n', '2', '-m', str(me), '-p', options.program, '-t', str(TIMES), '-j', journals[me], '-N'],
                          stderr=subprocess.PIPE) for me, words in enumerate(commands)]
    for pipeline in pipelines:
        lines = pipeline.process.communicate(timeout=5 * LONGEST_SECONDS)[1].decode().splitlines()
        told = [line for line in lines if not line.startswith('shmdbg: health ')]
        stop_unless(told == [f'counter {2 * TIMES}'], f'twice {TIMES} is said to be: {told}')
    for pipeline in pipelines:
        pipeline.stop()
    print(f'counters in C and Python: {TIMES} and {TIMES} are {2 * TIMES}')
    audit(options, journals)


def rate(seconds, act):
    """How often this can be done in a second."""
    begin, count = time.monotonic(), 0
    while time.monotonic() < begin + seconds:
        act(count)
        count += 1
    return count / (time.monotonic() - begin)


def measure(options, broker, folder, topic, journaled):
    journals = [os.path.join(folder, f'{topic}-{me}.journal') if journaled else None for me in range(2)]
    sites = [Site.over_broker(options.program, 2, me, PAGES, topic, broker.options, journal=journals[me], begin=journaled) for me in range(2)]
    caller = Caller(broker, topic, 'python')
    sites[0].shm_write(0, 0, b'x')
    sites[1].shm_read(0, 0, 1)
    sites[0].shm_write(0, 0, b'x')
    beside = rate(options.seconds, lambda count: sites[0].shm_write(0, 0, bytes([count % 256])))
    away = rate(options.seconds, lambda count: caller.ask(0, f'store 0 0 {count % 256}'))
    faults = rate(options.seconds, lambda count: sites[count % 2].shm_write(0, 0, bytes([count % 256])))
    caller.stop()
    for site in sites:
        site.stop()
    print(f'{"with" if journaled else "without"} journals: {beside:.0f} accesses a second beside the site, {away:.0f} over the broker; '
          f'{faults:.0f} faults a second', flush=True)


def main():
    parser = argparse.ArgumentParser()
    parser.add_argument('--program', default=os.path.join(HERE, '..', '..', 'crates', 'shmdbg', 'out', 'shmdbg'))
    parser.add_argument('--seconds', type=float, default=3)
    options = parser.parse_args()
    signal.signal(signal.SIGTERM, lambda *_: sys.exit(1))
    commands = find_commands()
    with tempfile.TemporaryDirectory(prefix='broker-') as folder:
        broker = Broker(commands['mosquitto'], folder)
        try:
            broker.wait()
            run_three_sites(options, broker, folder)
            run_counters(options, broker, folder)
            for journaled in (False, True):
                measure(options, broker, folder, f'rates-{journaled}', journaled)
        finally:
            broker.process.terminate()
            end_process(broker.process)


if __name__ == '__main__':
    main()
