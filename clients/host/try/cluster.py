"""Hosts on this machine: a daemon for each, the carrier between them, and programs that run over them."""
import itertools
import os
import select
import shutil
import signal
import socket
import subprocess
import tempfile
import time

PACKAGES = {'mosquitto_sub': 'mosquitto-clients', 'mosquitto': 'mosquitto', 'perl': 'perl', 'ipcs': 'util-linux', 'stress-ng': 'stress-ng',
            'valgrind': 'valgrind', 'pg_lsclusters': 'postgresql', 'setpriv': 'util-linux', 'Xvfb': 'xvfb'}
keys = itertools.count(1000)
slowness = [1]  # how many times as slow as one at rest the machine may be
patience = [240]  # seconds until a program counts as one that goes on and on


def within(seconds):
    """What takes at most so long on a machine at rest."""
    return seconds * slowness[0]


def expect(condition, text):
    if not condition:
        raise AssertionError(text)


def has(*names):
    missing = sorted({PACKAGES[name] for name in names if shutil.which(name) is None})
    if missing:
        print(f'  left out: this needs the Debian packages {" ".join(missing)}')
    return not missing


def answer_of(process):
    try:
        told, complaint = process.communicate(timeout=within(patience[0]))
    except subprocess.TimeoutExpired:
        process.kill()
        raise AssertionError(f'{process.args[3:]} goes on and on') from None
    expect(process.returncode == 0, f'{process.args[3:]}: status {process.returncode}, {told} {complaint}')
    return told.strip()


class Cluster:
    """So many hosts. `words` are the daemons' own; `before` stands before their command; `rough` says how much the carrier loses, repeats
    and delays. Without `hub` nothing is started: `begin` does it, with carriers that the daemons start. `program` is the sites'."""

    def __init__(self, options, hosts, rough=('0', '0', '0'), journals=False, words=(), before=(), seed=1, hub=True, program=None):
        self.options, self.hosts = options, hosts
        self.program = program or options.program
        self.words, self.before, self.streams = words, before, []
        self.folder = tempfile.mkdtemp(prefix='cluster-', dir=options.build)
        os.chmod(self.folder, 0o1777)
        self.journals = [os.path.join(self.folder, f'journal-{me}') for me in range(hosts)] if journals else []
        self.logs = [open(os.path.join(self.folder, f'log-{me}'), 'a+') for me in range(hosts)]
        if hub:
            self.begin_with_hub(rough, seed)

    def begin_with_hub(self, rough, seed):
        pairs = [socket.socketpair() for _ in range(self.hosts)]
        ends = [pair[1].fileno() for pair in pairs]
        hub = [os.path.join(self.options.build, 'try', 'hub'), *rough, str(seed)]
        self.carrier = subprocess.Popen(hub + [str(end) for end in ends], pass_fds=ends)
        self.streams = [pair[0] for pair in pairs]
        self.daemons = [self.start(me, self.streams[me]) for me in range(self.hosts)]
        for pair in pairs:
            pair[1].close()
        self.wait_for_sockets()

    def begin(self, carrier, *carried):
        """`carried` are the words of each daemon's carrier."""
        self.carrier = subprocess.Popen(carrier, stdout=subprocess.DEVNULL, stderr=subprocess.DEVNULL)
        time.sleep(1)
        self.daemons = [self.start(me, subprocess.DEVNULL, '--', *words) for me, words in enumerate(carried)]
        self.wait_for_sockets()
        time.sleep(1)

    def command(self, me):
        command = [*self.before, os.path.join(self.options.build, 'leddwyfan-host'), '--sites', str(self.hosts), '--me', str(me)]
        command += ['--socket', self.socket(me), '--program', self.program, *self.words]
        return command + self.journal_words(me)

    def journal_words(self, me):
        if not self.journals:
            return []
        journal = self.journals[me]
        is_begun = os.path.exists(journal) and os.path.getsize(journal) > 0
        return ['--journal', journal] + ([] if is_begun else ['--new'])

    def start(self, me, stream, *words):
        return subprocess.Popen(self.command(me) + list(words), stdin=stream, stdout=stream, stderr=self.logs[me])

    def wait_for_sockets(self):
        until = time.monotonic() + within(20)
        while not all(self.answers(me) for me in range(self.hosts)):
            expect(time.monotonic() < until, f'the daemons start: {self.complaints()}')
            time.sleep(0.02)

    def answers(self, me):
        with socket.socket(socket.AF_UNIX, socket.SOCK_SEQPACKET) as probe:
            return probe.connect_ex(self.socket(me)) == 0

    def socket(self, me):
        return os.path.join(self.folder, f'socket-{me}')

    def complaints(self):
        for log in self.logs:
            log.seek(0)
        return ''.join(log.read() for log in self.logs)

    def run(self, me):
        return [os.path.join(self.options.build, 'leddwyfan-run'), '--socket', self.socket(me)]

    def on(self, me, *words, **how):
        """Runs a program on a host. `how` is Popen's: `user`, or what its output is."""
        words = [os.path.join(self.options.build, 'try', words[0][2:]), *words[1:]] if words[0].startswith('./') else words
        how = {'stdout': subprocess.PIPE, 'stderr': subprocess.PIPE, **how}
        return subprocess.Popen(self.run(me) + [str(word) for word in words], text=True, **how)

    def told(self, me, *words, **how):
        return answer_of(self.on(me, *words, **how))

    def together(self, *programs):
        """Each is a host and words: all run at once. What each told."""
        processes = [self.on(me, *words) for me, *words in programs]
        try:
            return [answer_of(process) for process in processes]
        finally:
            for process in processes:
                process.kill()

    def site_of(self, me):
        listed = subprocess.run(['ps', '-o', 'pid=,args=', '--ppid', str(self.daemons[me].pid)], stdout=subprocess.PIPE, text=True).stdout
        sites = [int(line.split()[0]) for line in listed.splitlines() if ' site --sites ' in line]
        return sites[0] if sites else None

    def kill_site(self, me):
        """Its daemon tells of it in its log, and so does the site once it is back."""
        site, told = self.site_of(me), self.log_of(me).count('was killed')
        if site is not None:
            os.kill(site, signal.SIGKILL)
            while self.log_of(me).count('was killed') == told and self.daemons[me].poll() is None:
                time.sleep(0.02)

    def is_back(self, me):
        log = self.log_of(me)
        return log.rfind('steps taken again') >= log.rfind('was killed') or self.daemons[me].poll() is not None

    def log_of(self, me):
        with open(os.path.join(self.folder, f'log-{me}')) as log:
            return log.read()

    def memory(self):
        """Kilobytes of the daemons, and of their sites."""
        processes = [daemon.pid for daemon in self.daemons] + [self.site_of(me) for me in range(self.hosts)]
        return [resident(process) for process in processes]

    def stop(self):
        for daemon in self.daemons:
            daemon.terminate()
        for daemon in self.daemons:
            daemon.wait(within(60))
        self.carrier.terminate()
        self.carrier.wait()
        for stream in self.streams:
            stream.close()
        complaints = [line for line in self.complaints().splitlines(True) if not is_health(line)]
        for log in self.logs:
            log.close()
        return ''.join(complaints)

    def audit(self):
        words = [self.options.program, 'audit', '--sites', str(self.hosts), *self.journals]
        told = subprocess.run(words, stdout=subprocess.PIPE, stderr=subprocess.STDOUT, text=True).stdout
        expect(told.startswith('audit yes'), told)
        return ', '.join(told.splitlines())


def is_health(line):
    """A site's counts."""
    return line.startswith('shmdbg: health ')


def has_ended(process):
    """Its files are closed then, even where nobody has waited for it."""
    try:
        with open(f'/proc/{process}/stat') as stat:
            return stat.read().rsplit(')', 1)[1].split()[0] in 'ZX'
    except OSError:
        return True


def resident(process):
    """Without what it maps of files and segments."""
    try:
        with open(f'/proc/{process}/status') as status:
            return next(int(line.split()[1]) for line in status if line.startswith('RssAnon'))
    except (OSError, StopIteration):
        return 0


class Words:
    """A program on each host that adds to words where it is told to, so that each answer is known before."""

    def __init__(self, cluster):
        self.cluster, self.key, self.values = cluster, next(keys), {}
        self.programs = [self.program(me) for me in range(cluster.hosts)]

    def program(self, me):
        return self.cluster.on(me, './words', self.key, stdin=subprocess.PIPE, stderr=None)

    def ask(self, *asks):
        """Each is a host, a word and how often: all at once, each of a host and a word of its own. Fails where one isn't told what the word must be."""
        for me, word, times in asks:
            self.values[word] = self.values.get(word, 0) + times
            self.programs[me].stdin.write(f'{word} {times}\n')
            self.programs[me].stdin.flush()
        for me, word, times in asks:
            expect(select.select([self.programs[me].stdout], [], [], within(patience[0]))[0], f'words goes on and on; {self.cluster.complaints()}')
            told = self.programs[me].stdout.readline().strip()
            expect(told == str(self.values[word]), f'host {me} has {told} in place of {self.values[word]}')

    def end(self):
        for program in self.programs:
            program.kill()
            program.wait()
