#!/usr/bin/env python3
"""Tries programs that know nothing of sites, over two and three hosts on this machine, with a carrier that loses, repeats and delays.

    try.py [--program PROGRAM] [--only NAME] [--times N] [--seconds SECONDS] [--slow TIMES] [--speed [--journals]]

Builds what is here. Some of what is tried needs Debian packages, which it names where they are missing. The status is 1 where something isn't
as expected. Needs what leddwyfan-host needs: root, or what docs/programs.md says.

With --seconds it goes on so long, with kills and losses; with --speed it times, and tries nothing."""
import argparse
import copy
import itertools
import os
import random
import shutil
import signal
import socket
import stat
import subprocess
import sys
import tempfile
import time

HERE = os.path.dirname(os.path.abspath(__file__))
sys.path.insert(0, os.path.join(HERE, 'try'))
from cluster import Cluster, Words, expect, has, has_ended, keys, patience, slowness, within
from endings import try_ending, try_leaving
from framebuffer import try_framebuffer
from others import try_modules, try_others, try_postgres
from refusals import try_refusals, try_sockets
from rough import ROUGH, odd_lines, rough_cluster
from sleepers import try_sleepers
from times import time_all

BROKEN = {1: 'leaves a page in memory that was read and is given up', 2: 'leaves a page in memory that was written and is given up',
          3: 'leaves a page open to write that it lends', 4: "doesn't say what changed", 5: 'opens pages to write that are mapped to read',
          6: "doesn't protect before it says what changed"}


def try_counts(cluster, times=500):
    key = next(keys)
    cluster.together(*[(me, './count', key, 4, times) for me in range(cluster.hosts)])
    told = cluster.told(0, './count', key, 1, 1)
    expected = 8 * times * cluster.hosts + 2
    expect(told == f'{expected} {expected}', f'{expected} adds are {told}')
    return f'{expected} adds of {8 * cluster.hosts} threads'


def try_words(cluster, rounds, seed=1):
    """One host after the other adds to words of two pages, or looks; then all at once, each to a word of its own beside the others'."""
    draw, hosts, words = random.Random(seed), cluster.hosts, Words(cluster)
    try:
        for _ in range(rounds):
            words.ask((draw.randrange(hosts), draw.choice((0, 1024)), draw.randrange(2)))
        for _ in range(rounds // 5):
            words.ask(*[(me, 8 + me, 2000) for me in range(hosts)])
            words.ask(*[(me, 8 + (me + 1) % hosts, 0) for me in range(hosts)])
    finally:
        words.end()
    return f'words {rounds} times one, {rounds // 5} times all'


def try_lock(cluster, kind, times):
    of = 2 if kind == 'peterson' else cluster.hosts
    key = next(keys)
    told = cluster.together(*[(me, './lock', key, kind, me, of, times) for me in range(of)])
    counts = [int(line.split()[0]) for line in told]
    expect(max(counts) == of * times, f'{kind}: {of} times {times} is {counts}')
    return f'{kind} {max(counts)}, {min(float(line.split()[1]) for line in told):.0f} a second each'


def try_ring(cluster, times):
    key = next(keys)
    told = cluster.together((0, './ring', key, 'put', times), (cluster.hosts - 1, './ring', key, 'get', times))
    expect(all(line.split()[0] == '0' for line in told), f'records: {told}')
    return f'ring {times}'


def try_pages(cluster, rounds):
    """One host stores to page after page, the others read them in the same order, so that pages are read ahead."""
    key, pages = next(keys), 24
    told = cluster.together(*[(me, './pages', key, 'get' if me > 0 else 'put', pages, rounds) for me in range(cluster.hosts)])
    expect(set(told) == {'0'}, f'pages that go back: {told}')
    return f'pages {pages} times {rounds}'


def try_litmus(cluster, test, rounds, *plain):
    key = next(keys)
    roles = 4 if test == 'iriw' else 2
    programs = [(role % cluster.hosts, './litmus', key, test, role, rounds, *plain) for role in range(roles)]
    wrong = int(cluster.together(*programs)[0])
    expect(wrong == 0 or (test == 'sb' and plain), f'litmus {test}: {wrong} of {rounds} rounds must not be')
    return f'{test}{"-plain" if plain else ""} {wrong}/{rounds}'


def try_all_litmus(cluster, rounds):
    tests = ('sb', 'mp', 'lb', 'ww', 'co', 'iriw')
    return 'litmus: ' + ', '.join([try_litmus(cluster, test, rounds) for test in tests] + [try_litmus(cluster, test, rounds, 'plain') for test in tests])


def try_locks(cluster, times):
    return '; '.join(try_lock(cluster, kind, times) for kind in ('spin', 'near', 'peterson', 'mutex', 'turns'))


def try_calls(cluster):
    for me in range(cluster.hosts):
        cluster.told(me, './calls')
    return 'calls, fork, exec, exit, kill'


def try_smooth(options):
    for hosts in (2, 3):
        cluster = Cluster(options, hosts)
        try:
            yield try_counts(cluster)
            yield try_words(cluster, options.times // 5)
            yield try_locks(cluster, options.times)
            yield try_ring(cluster, 10 * options.times)
            yield try_pages(cluster, options.times // 5)
            yield try_all_litmus(cluster, 2 * options.times)
            yield try_calls(cluster)
            yield from try_others(cluster)
            yield from try_modules(cluster, 30)
        finally:
            complaints = cluster.stop()
        expect(complaints == '', complaints)


def try_kills(options):
    times = options.times // 5
    with rough_cluster(options, 1) as cluster:
        yield try_counts(cluster, times)
        yield try_words(cluster, times)
        yield try_locks(cluster, times // 5)
        yield try_ring(cluster, times)
        yield try_pages(cluster, times // 5)
        yield try_litmus(cluster, 'sb', times // 5)
        yield try_litmus(cluster, 'iriw', times // 5)
    yield f'{cluster.kills} sites killed; {cluster.audit()}'


def try_untold(options):
    """Sites that are killed when they have made durable that they gave, mapped or took back a page, and nobody was told yet."""
    os.environ['SHMDBG'] = options.program
    cluster = Cluster(options, 3, journals=True, program=os.path.join(HERE, 'try', 'untold.py'))
    try:
        told = [try_counts(cluster, options.times // 5), try_words(cluster, options.times // 5)]
    finally:
        complaints = cluster.stop()
    odd, kills = odd_lines(complaints), complaints.count('was killed')
    expect(not odd and kills > 0, f'{kills} kills, {odd}')
    yield f'{", ".join(told)}; {kills} sites killed before they told; {cluster.audit()}'


def try_repeats(options):
    """A carrier that repeats most of what it carries, and late: what comes again must not undo what programs stored meanwhile."""
    cluster = Cluster(options, 3, rough=('0', '70', '70'), journals=True)
    try:
        for turn in range(30):
            first = next(keys)
            try_counts(cluster, 100)
            try_words(cluster, 30, turn)
            cluster.told(0, 'ipcrm', *[word for key in range(first + 1, next(keys)) for word in ('-M', key)])
    finally:
        complaints = cluster.stop()
    expect(complaints == '', complaints)
    yield f'30 turns of counts and words; {cluster.audit()}'


def try_broken(options):
    """Each broken rule is seen: something counts wrong, has an outcome that must not be, or goes on for ten times as long as without it."""
    begun = time.monotonic()
    sound = broken_cluster(options, 0)
    try:
        turn_broken(sound, 0)
    finally:
        sound.stop()
    longest = max(20, 10 * (time.monotonic() - begun))
    for rule, says in BROKEN.items():
        cluster = broken_cluster(options, rule)
        try:
            seen = see_broken(cluster, longest)
        finally:
            cluster.stop()
        expect(seen, f'rule {rule} is broken ({says}), and nothing is seen')
        yield f'seen where the daemon {says}: {seen}'


def broken_cluster(options, rule):
    return Cluster(options, 3, rough=('0', '20', '20'), words=('--break', str(rule)))


def turn_broken(cluster, turn):
    try_words(cluster, 200, turn)
    try_counts(cluster, 300)


def see_broken(cluster, longest):
    """What shows it: programs whose every answer is known. What needs two to meet in a moment needs some turns."""
    before, patience[0] = patience[0], longest
    try:
        for turn in range(30):
            turn_broken(cluster, turn)
    except AssertionError as seen:
        return str(seen).splitlines()[0].replace(cluster.options.build, '..')[:100]
    finally:
        patience[0] = before
    return None


def try_daemon_death(options):
    """A program whose daemon dies goes on with the pages that it has, sees no zeros, and waits at its next fault; and no new daemon begins
    while it lives."""
    cluster = Cluster(options, 2)
    code = '''import ctypes, sys, time
c = ctypes.CDLL(None); c.shmat.restype = ctypes.c_void_p
p = c.shmat(c.shmget(77, 8192, 0o1666), None, 0); b = (ctypes.c_char * 8192).from_address(p)
b[0] = b"a"; print("here", flush=True); sys.stdin.readline(); b[1] = b"b"; print(b[0:2].decode(), flush=True); print(b[4096], flush=True)'''
    program = cluster.on(0, sys.executable, '-c', code, stdin=subprocess.PIPE, bufsize=1)
    try:
        expect(program.stdout.readline() == 'here\n', 'the program has a page')
        cluster.daemons[0].kill()
        cluster.daemons[0].wait()
        program.stdin.write('\n')
        expect(program.stdout.readline() == 'ab\n', 'it goes on with it')
        time.sleep(0.5)
        expect(program.poll() is None, 'it waits at its next fault')
        again = cluster.start(0, subprocess.DEVNULL)
        expect(again.wait(within(10)) == 1 and 'still run' in cluster.complaints(), 'no other daemon begins')
    finally:
        program.kill()
        program.wait()
        cluster.stop()
    yield 'a new fault waits where the daemon died, and no zeros are seen'
    yield from try_daemon_again(options)


def try_daemon_again(options):
    """A daemon that was killed begins again, with its journal, and gives up what stands there as mapped."""
    cluster = Cluster(options, 2, journals=True)
    words = Words(cluster)
    try:
        for ask in ((0, 0, 5), (1, 0, 1), (0, 0, 1), (1, 0, 0), (0, 1024, 0)):
            words.ask(ask)
        site = cluster.site_of(0)
        for process in (words.programs[0], cluster.daemons[0]):
            process.kill()
            process.wait()
        while not has_ended(site):  # it ends with its input, and has the journal until then
            time.sleep(0.02)
        cluster.daemons[0] = cluster.start(0, cluster.streams[0])
        words.ask((1, 0, 1))
        words.ask((1, 1024, 1))
        words.programs[0] = words.program(0)
        words.ask((0, 0, 1))
        words.ask((0, 1024, 1))
        told = try_counts(cluster, 20)
    finally:
        words.end()
        complaints = cluster.stop()
    odd = [line for line in odd_lines(complaints) if line != 'shmdbg: write fault']  # of the site whose daemon was killed
    expect(not odd, '\n'.join(odd))
    yield f'a daemon that begins again: {told}; {cluster.audit()}'


def try_carriers(options):
    """One command as the carrier, as ssh would be, and two, as a broker's are."""
    with socket.socket() as free:
        free.bind(('127.0.0.1', 0))
        port = str(free.getsockname()[1])
    at = ['-h', '127.0.0.1', '-p', port, '-t', 'cluster']
    one, two = Cluster(options, 2, hub=False), Cluster(options, 2, hub=False)
    try:
        one.begin(['sleep', '1000'], one.command(1))
        yield 'one command: ' + try_counts(one, 200)
    finally:
        one.stop()
    if not has('mosquitto', 'mosquitto_sub'):
        return
    try:
        two.begin(['mosquitto', '-p', port], *[['mosquitto_sub', *at, '--', 'mosquitto_pub', *at, '-l']] * 2)
        yield 'mosquitto: ' + try_counts(two, 200)
    finally:
        two.stop()


def try_database(options):
    if not has('pg_lsclusters', 'setpriv'):
        return
    cluster = Cluster(options, 2)
    try:
        yield try_postgres(cluster)
    finally:
        complaints = cluster.stop()
    expect(complaints == '', complaints)


def try_nobody(options):
    """Programs of a user without privilege, whose segments are their own; then a daemon that is that user's, with what docs/programs.md
    names: CAP_SYS_PTRACE, and a /dev/userfaultfd that it may open."""
    if not has('setpriv'):
        return
    device = os.path.join(options.build, 'userfaultfd')
    if not os.path.exists(device):
        os.mknod(device, 0o666 | stat.S_IFCHR, os.stat('/dev/userfaultfd').st_rdev)
        os.chmod(device, 0o666)
    own = ['setpriv', '--reuid=nobody', '--regid=nogroup', '--clear-groups', '--inh-caps=+sys_ptrace', '--ambient-caps=+sys_ptrace']
    private = ['unshare', '--mount', 'sh', '-c', f'mount --bind {device} /dev/userfaultfd && exec "$@"', 'sh']
    for says, before in (('with a daemon of root', ()), ('with a daemon of their own', private + own)):
        cluster = Cluster(options, 2, before=before)
        try:
            for me in range(2):
                cluster.told(me, './calls', user='nobody', group='nogroup', extra_groups=[])
            made = cluster.told(0, 'ipcmk', '-M', '5000', '-p', '0600').split()[-1]
            removed = cluster.on(1, 'ipcrm', '-m', made, user='nobody', group='nogroup', extra_groups=[])
            expect('not permitted' in removed.communicate()[1].lower() or removed.returncode != 0, 'nobody removes a segment of root')
            yield f'programs of nobody {says}'
        finally:
            complaints = cluster.stop()
        expect(complaints == '', complaints)


def try_checked(options):
    """The daemon as the compiler's sanitizers check it, and under valgrind."""
    checks = copy.copy(options)
    checks.build = os.path.join(options.build, 'checked')
    build(checks, 'SANITIZE=-g -fsanitize=address,undefined -fno-sanitize-recover=all')
    for says, chosen, before in (('sanitizers', checks, ()), ('valgrind', options, ('valgrind', '-q', '--leak-check=full'))):
        if not (before == () or has('valgrind')):
            return
        cluster = Cluster(chosen, 2, before=before)
        open_at_its_end = socket.socket(socket.AF_UNIX, socket.SOCK_SEQPACKET)
        open_at_its_end.connect(cluster.socket(0))
        try:
            told = [try_counts(cluster, 20), try_words(cluster, 20), try_pages(cluster, 5), try_calls(cluster), *try_others(cluster)]
            yield f'{says}: {", ".join(told)}'
        finally:
            complaints = cluster.stop()
            open_at_its_end.close()
        odd = [line for line in complaints.splitlines() if '==' not in line or any(word in line for word in ('Invalid', 'ninitialised', 'lost', 'ERROR'))]
        expect(not odd, complaints)


BOMB = '''
import ctypes, os, sys, time
c = ctypes.CDLL(None); c.shmat.restype = ctypes.c_void_p
words = (ctypes.c_uint16 * 2048).from_address(c.shmat(c.shmget(int(sys.argv[1]), 8192, 0o1600), None, 0))
for number in range(2000):
    if os.fork() == 0: words[number] = number; time.sleep(5); os._exit(0)
for number in range(2000): os.wait()
print(sum(words[number] == number for number in range(2000)))
'''


def kill_early(cluster, times):
    """Programs that are killed while they ask, attach and fork. Afterwards nobody has their segment attached."""
    draw, key = random.Random(1), next(keys)
    for _ in range(times):
        program = cluster.on(draw.randrange(cluster.hosts), './count', key, 2, 20)
        time.sleep(draw.uniform(0, 0.03))
        program.kill()
        program.wait()
    until, attached = time.monotonic() + within(3), None
    while attached != ['0']:
        expect(time.monotonic() < until, f'nobody has attached it: {attached}')
        time.sleep(1)
        attached = [line.split()[5] for line in cluster.told(0, 'ipcs', '-m').splitlines() if line.startswith(f'0x{key:08x}')]
    return f'{times} programs killed early'


def try_many(options):
    """2,000 children of one program at a time, each of which stores to a page."""
    cluster = Cluster(options, 2)
    try:
        told = cluster.told(1, sys.executable, '-c', BOMB, next(keys))
        expect(told == '2000', f'2,000 children stored, and {told} words are right')
        yield f'2,000 children at a time; {kill_early(cluster, 100)}; {try_counts(cluster, 50)}'
    finally:
        complaints = cluster.stop()
    expect(complaints == '', complaints)


def try_seals(options):
    """All lines under a cluster's name and key."""
    key = os.path.join(options.build, 'cluster.key')
    with open(key, 'w') as file:
        file.write('a key of these hosts\n')
    cluster = Cluster(options, 3, rough=ROUGH, journals=True, words=('--cluster', 'north', '--key', key))
    try:
        yield f'under a key: {try_counts(cluster, 100)}; {try_words(cluster, 30)}'
    finally:
        complaints = cluster.stop()
    expect(complaints == '', complaints)
    yield cluster.audit()


TRIES = {'smooth': try_smooth, 'sleepers': try_sleepers, 'carriers': try_carriers, 'postgres': try_database, 'framebuffer': try_framebuffer,
         'nobody': try_nobody, 'checked': try_checked, 'many': try_many, 'refusals': try_refusals, 'sockets': try_sockets, 'leaving': try_leaving,
         'ending': try_ending, 'death': try_daemon_death, 'kills': try_kills, 'untold': try_untold, 'seals': try_seals, 'repeats': try_repeats,
         'broken': try_broken}


def run_tries(options):
    for name, one in TRIES.items():
        if options.only not in (None, name):
            continue
        print(name, flush=True)
        for line in one(options):
            print(f'  {line}', flush=True)


def soak(options):
    """One cluster for so long: what its processes hold of memory, in kilobytes, after each turn; then the audit."""
    until, times = time.monotonic() + options.seconds, options.times // 10
    with rough_cluster(options, 1) as cluster:
        for turn in itertools.count(1):
            first = next(keys)
            told = [try_counts(cluster, times), try_words(cluster, times, turn), try_lock(cluster, 'mutex', times), try_ring(cluster, times)]
            told.append(try_pages(cluster, times // 5))
            print(f'  {turn}: {", ".join(told)}; memory {cluster.memory()}', flush=True)
            cluster.told(0, 'ipcrm', *[word for key in range(first + 1, next(keys)) for word in ('-M', key)])
            if time.monotonic() > until:
                break
    print(f'  {cluster.kills} sites killed; {cluster.audit()}')


def build(options, *words):
    """All that is tried, in a folder that every user may read."""
    os.makedirs(options.build, exist_ok=True)
    os.chmod(options.build, 0o755)
    subprocess.run(['make', '-s', '-C', HERE, f'BUILD={options.build}', *words, 'tried'], check=True)
    options.program = shutil.copy(options.program, os.path.join(options.build, 'shmdbg'))
    os.chmod(options.program, 0o755)


def main():
    parser = argparse.ArgumentParser()
    parser.add_argument('--program', default=os.path.join(HERE, '..', '..', 'crates', 'shmdbg', 'out', 'shmdbg'))
    parser.add_argument('--only', choices=sorted(TRIES))
    parser.add_argument('--times', type=int, default=500, help='rounds of a lock; of the others as many, or more')
    parser.add_argument('--seconds', type=int, default=0)
    parser.add_argument('--between-kills', type=float, default=1, help='seconds; more for a program that was compiled with checks')
    parser.add_argument('--slow', type=float, default=1, help='how many times as slow as one at rest the machine may be: all limits of time are so much longer')
    parser.add_argument('--build', help='a folder for what is built, in place of a new one')
    parser.add_argument('--speed', action='store_true')
    parser.add_argument('--journals', action='store_true', help='with --speed: the sites have journals')
    options = parser.parse_args()
    slowness[0], os.environ['SLOW'] = options.slow, str(options.slow)
    options.program = os.path.abspath(options.program)
    if not os.path.isfile(options.program):
        sys.exit(f'try.py: no {options.program}: `make build` makes it')
    signal.signal(signal.SIGTERM, lambda *_: sys.exit(1))
    begin = time.monotonic()
    with tempfile.TemporaryDirectory(prefix='programs-') as folder:
        options.build = options.build or folder
        build(options)
        try:
            time_all(options) if options.speed else soak(options) if options.seconds else run_tries(options)
        except AssertionError as fault:
            sys.exit(f'try.py: not so: {fault}')
    print(f'{time.monotonic() - begin:.0f} seconds')


if __name__ == '__main__':
    main()
