#!/usr/bin/env python3
"""Starts a site wrongly in each way that an operator may, and audits, and looks at what is told.

    starts.py [PROGRAM]      without PROGRAM: crates/shmdbg/out/shmdbg

Each start has its status, its one line on standard error and its output; and what the journal's file has afterwards. Where strace is there and
may trace, calls of the system fail, too. The status is 1 where something else is told than has to be."""

import os
import re
import resource
import shutil
import signal
import stat
import subprocess
import sys
import tempfile
import time

from batches import marked

HERE = os.path.dirname(os.path.abspath(__file__))
HEADER = b'journal 2 0 1\n'
STEP = b'step 1 ask 0 a store 0 5 7\n'
RESTART = b'step 2 restart\n'
BEGUN_ALONE = marked(HEADER)
STORED = marked(HEADER, STEP)
STORE = b'ask 0 a store 0 5 7\n'
TOLD = b'tell 0 a stored\n'
LOST = 'journal: there is none of this name: --new begins one'
BEGUN = 'journal: it is begun already: start the site without --new'
BLANK = 'journal: nothing is begun in it: --new begins it'
OTHER = 'journal: of another site, number of sites, opening or cluster'
NO_FILE = 'journal: it is no plain file'
NO_NAME = 'cluster: a name has 1 to 32 bytes of printable ASCII, and no blank'
FAILED = 'journal: write fault'
DAMAGED = 'damaged behind its first %d bytes: a whole batch stands behind a broken one'
UNMARKED = 'its batches have no marks: an earlier version kept it'
# What docs/machines.md shows for such a journal.
MARK = '''printf 'durable 1 %064d' 0 >> "$1"; printf ' %s\\n' "$(sha256sum < "$1" | cut -d' ' -f1)" >> "$1" '''
TOOK = re.compile(rb', in \d+ ms$', re.M)
GREETING = b'env 0 1 0 0 0 hello 2 1\n'
GREETINGS = re.compile(rb'\A(env \d+ \d+ 0 0 0 hello \d+ \d+( @\w+)?\n)+')
HEALTH = re.compile(rb'^shmdbg: health steps \d+ .*\n', re.M)
COUNTS = (b'shmdbg: health steps 1 clock 1 taken 1 passed 0 waiting 0 received 0 sent 0 journal %d since %d '
          b'other-cluster 0 no-digest 0 wrong-digest 0\n')
DISAGREES = b'shmdbg: site 1 was begun with --sites %d --preset %d, this one with --sites 2 --preset 1\n'
tried = [0]


def again(steps, batches, behind=0):
    return f'journal: steps taken again: {steps}, clock: {steps}, batches: {batches}, cut off {behind} bytes that were never durable'


def words(program, journal, new=False, sites=2, me=0, preset=1):
    asked = [program, 'site', '--sites', str(sites), '--me', str(me), '--preset', str(preset), '--journal', journal]
    return asked + ['--new'] * new


def start(name, command, status, fault, told=b'', **options):
    """Runs the site until its input ends, and compares what it came to, but for what each site says: a greeting first, and its counts last."""
    done = subprocess.run(command, input=options.pop('given', STORE), stdout=subprocess.PIPE, stderr=subprocess.PIPE, timeout=60, check=False,
                          **options)
    errors = f'shmdbg: {fault}\n'.encode() if fault else b''
    said = HEALTH.sub(b'', TOOK.sub(b'', done.stderr))
    if (done.returncode, GREETINGS.sub(b'', done.stdout, 1), said) != (status, told, errors):
        sys.exit(f'{name}: status {done.returncode}, told {done.stdout}, on standard error {done.stderr}')
    tried[0] += 1


def stays(name, journal, expected):
    with open(journal, 'rb') as file:
        found = file.read()
    if found != expected:
        sys.exit(f'{name}: the journal has {found}')


def write(journal, text):
    with open(journal, 'wb') as file:
        file.write(text)


def try_seals(program, folder, journal):
    """Names and keys that can't be one, and a journal of another cluster."""
    key, named = os.path.join(folder, 'key'), os.path.join(folder, 'named')
    write(key, b'\n')
    wrong = [('a name with a blank', ['--cluster', 'a b'], 1, NO_NAME), ('a long name', ['--cluster', 33 * 'n'], 1, NO_NAME),
             ('a key without a name', ['--key', key], 1, "key: it needs a cluster's name: --cluster NAME"),
             ('an empty key', ['--cluster', 'north', '--key', key], 1, 'key: its file is empty'),
             ('a key that is nowhere', ['--cluster', 'north', '--key', key + '.none'], 3, 'key: there is no such file'),
             ('a folder as a key', ['--cluster', 'north', '--key', folder], 3, 'key: it is a folder'),
             ('a journal without a name', ['--cluster', 'north'], 1, OTHER)]
    for name, further, status, fault in wrong:
        start(name, words(program, journal) + further, status, fault)
    stays('a journal without a name', journal, STORED)
    north = words(program, named, new=True) + ['--cluster', 'north']
    start('a line without a seal', north, 0, 'lines passed over: 1 of another cluster, 0 without a digest, 0 with a wrong digest')
    stays('a line without a seal', named, marked(b'journal 2 0 1 @north\n'))
    start("another cluster's journal", words(program, named) + ['--cluster', 'south'], 1, OTHER)
    start('no name for a named journal', words(program, named), 1, OTHER)


def try_files(program, folder):
    """Journals that aren't as they are asked for: each stays as it was."""
    journal = os.path.join(folder, 'site')
    start('a wrong folder', words(program, journal), 1, LOST)
    if os.path.exists(journal):
        sys.exit('a wrong folder: a file was made')
    start('a folder that is not there', words(program, os.path.join(folder, 'none', 'site'), new=True), 3, "journal: it can't be opened")
    start('a first start', words(program, journal, new=True), 0, '', TOLD)
    stays('a first start', journal, STORED)
    wrong = [('--new once more', {'new': True}, BEGUN), ("another site's", {'me': 1}, OTHER), ('other --sites', {'sites': 3}, OTHER),
             ('another --preset', {'preset': 2}, OTHER)]
    for name, options, fault in wrong:
        start(name, words(program, journal, **options), 1, fault)
        stays(name, journal, STORED)
    try_seals(program, folder, journal)
    for front in (b'', HEADER[:7], HEADER[:-1], HEADER, BEGUN_ALONE[:-1], bytes(len(BEGUN_ALONE)), BEGUN_ALONE[:20] + bytes(20), bytes(20) + BEGUN_ALONE[20:-1]):
        write(journal, front)
        start('a journal that was not begun', words(program, journal), 1, BLANK)
        stays('a journal that was not begun', journal, front)
        start('a journal that a crash left', words(program, journal, new=True), 0, '', TOLD)
        stays('a journal that a crash left', journal, STORED)
    for other in (b'a diary\n', b'journal 3', HEADER + b'step', BEGUN_ALONE[:-1] + b'x', BEGUN_ALONE[:-1] + bytes(5000)):
        write(journal, other)
        start('a file that no crash left', words(program, journal), 1, BLANK)
        start('a file that no crash left', words(program, journal, new=True), 1, 'journal: line 1: no entry of this site')
        stays('a file that no crash left', journal, other)


def hear(program, said, given, **options):
    """What a site of two, with one page, tells where another says how it was begun, and what it says of that."""
    done = subprocess.run([program, 'site', '--sites', '2', '--me', '0', '--preset', '1'], input=given, stdout=subprocess.PIPE,
                          stderr=subprocess.PIPE, timeout=60, check=True, **options)
    if done.stderr != said:
        sys.exit(f'another opening: on standard error {done.stderr}')
    tried[0] += 1
    return done.stdout


def try_openings(program, folder):
    """Other `--sites` or `--preset` at one site: both tell it, once."""
    del folder
    same = hear(program, b'', b'env 1 0 0 0 0 hello 2 1\n' + STORE)
    sites = hear(program, DISAGREES % (3, 1), b'env 1 0 0 0 0 hello 3 1\nenv 1 0 0 0 0 hello 3 1\n' + STORE)
    pages = hear(program, DISAGREES % (2, 4), b'env 1 0 0 0 0 hello 2 4\n' + STORE)
    if same != GREETING + TOLD or sites != 2 * GREETING + TOLD or pages != sites:
        sys.exit(f'another opening: told {same}, {sites}, {pages}')


def try_health(program, folder):
    """What a site with a journal has counted, on standard error when it ends; and when it was started."""
    before = int(time.time())
    done = subprocess.run(words(program, os.path.join(folder, 'counted'), new=True), input=STORE, capture_output=True, timeout=60, check=True)
    since = re.search(rb' since (\d+) ', done.stderr)
    counts = COUNTS % (len(HEADER + STEP), int(since[1]) if since else 0)
    if done.stderr != counts or not before <= int(since[1]) <= time.time():
        sys.exit(f'counts at the end: on standard error {done.stderr}, not {counts}')
    tried[0] += 1


def try_no_files(program, folder):
    fifo = os.path.join(folder, 'fifo')
    os.mkfifo(fifo)
    for name in (fifo, folder, '/dev/full', '/dev/null'):
        for new in (False, True):
            start(name, words(program, name, new), 1, NO_FILE)
    if not stat.S_ISFIFO(os.stat(fifo).st_mode):
        sys.exit('the fifo is no fifo any more')


def try_two(program, folder):
    journal = os.path.join(folder, 'two')
    first = subprocess.Popen(words(program, journal, new=True), stdin=subprocess.PIPE, stdout=subprocess.PIPE)
    first.stdin.write(STORE)
    first.stdin.flush()
    if first.stdout.readline() != GREETING or first.stdout.readline() != TOLD:
        sys.exit('two processes: the first tells nothing')
    start('two processes', words(program, journal), 3, 'journal: another process has it')
    first.communicate()
    stays('two processes', journal, STORED)


def try_closed(program, folder):
    """A journal never gets the number of a stream that was closed."""
    for name, closed, status, fault, told in [('standard input', '<&-', 3, 'standard input is closed', b''),
                                              ('standard output', '>&-', 3, 'standard output is closed', b''),
                                              ('standard error', '2>&-', 0, '', TOLD)]:
        journal = os.path.join(folder, 'closed-' + name[9:])
        start(f'{name} is closed', ['sh', '-c', f'exec "$@" {closed}', 'sh'] + words(program, journal, new=True), status, fault, told)
        if status == 0:
            stays(f'{name} is closed', journal, STORED)
        elif os.path.exists(journal):
            sys.exit(f'{name} is closed: a journal was begun')


def try_full(program, folder):
    """A disk that is full: no file may have more bytes than its first batch, and some."""
    journal = os.path.join(folder, 'full')

    def limit_to(count):
        def limit():
            signal.signal(signal.SIGXFSZ, signal.SIG_IGN)
            resource.setrlimit(resource.RLIMIT_FSIZE, (count, count))
        return limit
    start('a full disk at once', words(program, journal, new=True), 3, FAILED, preexec_fn=limit_to(len(BEGUN_ALONE) - 9))
    stays('a full disk at once', journal, b'')
    start('a full disk', words(program, journal, new=True), 3, FAILED, preexec_fn=limit_to(len(BEGUN_ALONE) + 16))
    stays('a full disk', journal, BEGUN_ALONE)
    start('a full disk, later', words(program, journal), 0, again(0, 1), b'tell 0 b byte 0\n', given=b'ask 0 b load 0 5\n')
    restarted = marked(HEADER, STEP, RESTART)
    write(journal, STORED)
    start('a full disk after a restart', words(program, journal), 3, f'{again(1, 2)}\nshmdbg: {FAILED}', preexec_fn=limit_to(len(restarted) + 5))
    stays('a full disk after a restart', journal, restarted)


def try_streams(program, folder):
    """Of the only site, which greets nobody: an input that can't be read, and an output that takes nothing: what was durable stays, and nothing counts as done."""
    journal, header = os.path.join(folder, 'streams'), b'journal 1 0 1\n'

    def over(streams, new=False):
        return ['sh', '-c', f'exec "$@" {streams}', 'sh'] + words(program, journal, new, sites=1)
    start('an input that is a folder', over(f'< {folder}', new=True), 3, 'read fault')
    stays('an input that is a folder', journal, marked(header))
    start('an output that is full', over('> /dev/full'), 3, again(0, 1) + '\nshmdbg: write fault')
    stays('an output that is full', journal, marked(header, b'step 1 restart\n', b'step 2 ask 0 a store 0 5 7\n'))
    start('after both', words(program, journal, sites=1), 0, again(2, 3), b'tell 0 b byte 7\n', given=b'ask 0 b load 0 5\n')
    for streams, fault in ((f'< {folder}', 'read fault'), ('> /dev/full', 'write fault')):
        start(f'a prompt {streams}', ['sh', '-c', f'exec "$@" {streams}', 'sh', program, 'prompt'], 3, fault, given=b'sites 1\n')


def try_behind(program, folder):
    """What may stand behind the last whole batch is cut off. The same of a last batch that was changed: nobody can tell."""
    journal, load = os.path.join(folder, 'behind'), b'step 3 ask 0 b load 0 5\n'
    restarted = marked(HEADER, STEP, RESTART)
    batch, changed = restarted[len(STORED):], restarted[:-9] + b'x' + restarted[-8:]
    for name, text in [('a front of a batch', STORED + batch[:-1]), ('zeros', STORED + bytes(8192)), ('more zeros than a line has', STORED + bytes(9000)),
                       ('a hole', STORED + bytes(8) + batch[8:]), ('garbage', STORED + bytes(range(256))), ('an old block', STORED + STORED[9:-9]),
                       ('a mark of other lines', STORED + STEP + batch), ('a last batch that was changed', changed)]:
        write(journal, text)
        asked = dict(told=b'tell 0 b byte 7\n', given=b'ask 0 b load 0 5\n')
        start(name, words(program, journal), 0, again(1, 2, len(text) - len(STORED)), **asked)
        stays(name, journal, marked(HEADER, STEP, RESTART, load))
    text = STORED[:-1] + b' ' + batch
    write(journal, text)
    start('a lost line feed between the last two', words(program, journal), 0, again(0, 1, len(text) - len(BEGUN_ALONE)), TOLD)


def try_damaged(program, folder):
    """A whole batch behind a broken one, and a journal of an earlier version: no start, no audit, no summary, and nothing is changed."""
    journal, restarted = os.path.join(folder, 'damaged'), marked(HEADER, STEP, RESTART)
    for name, text, fault in [('a changed byte', restarted.replace(b'store 0 5 7', b'store 0 5 8'), DAMAGED % len(BEGUN_ALONE)),
                              ('a changed first line', b'J' + restarted[1:], DAMAGED % 0), ('a lost batch', BEGUN_ALONE + restarted[len(STORED):],
                                                                                           DAMAGED % len(BEGUN_ALONE)),
                              ('a changed mark', restarted.replace(b'durable 2', b'Durable 2'), DAMAGED % len(BEGUN_ALONE)),
                              ('a batch twice', STORED + STORED[len(BEGUN_ALONE):], DAMAGED % len(STORED)),
                              ('behind zeros', STORED + bytes(9000) + b'\n' + BEGUN_ALONE, DAMAGED % len(STORED)),
                              ('no marks', HEADER + STEP, UNMARKED), ('no marks and a torn line', HEADER + STEP + b'step 2', UNMARKED)]:
        write(journal, text)
        for new in (False, True):
            start(name, words(program, journal, new), 1, f'journal: {fault}')
        start(f'{name}: a summary', [program, 'journal', journal], 1, f'{journal}: {fault}')
        start(f'{name}: an audit', audit(program, 2, journal, journal), 1, f'{journal}: {fault}')
        stays(name, journal, text)
    write(journal, HEADER + STEP)
    start('a mark by hand', ['sh', '-c', MARK, 'sh', journal], 0, '')
    stays('a mark by hand', journal, marked(HEADER + STEP))
    start('a mark by hand: a summary', [program, 'journal', journal], 0, '',
          b'site 0\nsites 2\npages 1\nsteps 1\nclock 1\nbytes %d\ntorn 0\nbatches 1\n' % len(marked(HEADER + STEP)))
    start('a mark by hand: a start', words(program, journal), 0, again(1, 1), b'tell 0 b byte 7\n', given=b'ask 0 b load 0 5\n')
    stays('a mark by hand: a start', journal, marked(HEADER + STEP, RESTART, b'step 3 ask 0 b load 0 5\n'))


def audit(program, sites, *journals):
    return [program, 'audit', '--sites', str(sites), *journals]


def try_audits(program, folder):
    """Each journal is read in its turn, and stays as it was; a cause has its file and its line."""
    first, second = os.path.join(folder, 'first'), os.path.join(folder, 'second')
    ticked = marked(b'journal 2 1 1\n', b'step 1 ask 1 b tick\n')
    invented = marked(b'journal 2 1 1\n', b'step 1 ask 1 b tick\n', b'step 2 env 0 1 1 0 0 clear 0 0 1\n')
    yes = b'audit yes\nsteps 2\naccesses 1\nenvelopes 0\n'
    one_set = 'not one set of journals'
    for name, text, journals, status, fault, told in [
            ('an audit', ticked, (first, second), 0, '', yes),
            ('an audit of another order', ticked, (second, first), 1, one_set, b''),
            ('an audit of one file twice', ticked, (first, first), 1, one_set, b''),
            ('an audit of too few', ticked, (first,), 1, one_set, b''),
            ('an audit of a torn journal', ticked + bytes(99), (first, second), 0, '', yes),
            ('an audit of what nobody sent', invented, (first, second), 4, f'audit no: unsent 1 1: {second}: line 3', b'')]:
        write(first, STORED)
        write(second, text)
        start(name, audit(program, 2, *journals), status, fault, told)
        stays(name, first, STORED)
        stays(name, second, text)
    named, other_named = marked(b'journal 2 0 1 @north\n', STEP), marked(b'journal 2 1 1 @north\n', b'step 1 ask 1 b tick\n')
    for name, one, other in (('an audit of a named cluster', STORED, other_named), ('an audit of no cluster', named, ticked)):
        write(first, one)
        write(second, other)
        start(name, audit(program, 2, first, second), 1, f'{second}: of another cluster than the first journal', b'')


def try_later_steps(program, folder):
    """A site that hears of a step of its own that it lacks ends: of what it read with that nothing is kept or told."""
    journal = os.path.join(folder, 'later')
    later = b'env 0 1 %d 1 0 clear 0 0 1\n'
    start('the last step', words(program, journal, new=True), 0, '', TOLD, given=STORE + later % 1)
    stays('the last step', journal, STORED)
    old = 'journal: too old: this site made a step at clock 9 that it lacks'
    start('a later step', words(program, journal), 1, again(1, 2) + '\nshmdbg: ' + old, given=STORE + later % 9)
    stays('a later step', journal, marked(HEADER, STEP, RESTART))


def try_saves(program, folder):
    """What is saved has its name and its bytes, in the place of what was there; what can't be saved is told as unsaved."""
    script = os.path.join(folder, 'script')
    write(script, b'old\n' * 9)
    start('a saved script', [program, 'prompt'], 0, '', f'1 ready\nsaved to {script}\n'.encode(), given=f'sites 1\nsave {script}\n'.encode())
    stays('a saved script', script, b'sites 1\n')
    for name in (os.path.join(folder, 'none', 'script'), folder, '/dev/full'):
        start('a script that is not saved', [program, 'prompt'], 0, '', f"1 ready\nnot saved: {name} can't be written\n".encode(),
              given=f'sites 1\nsave {name}\n'.encode())
    logs = [os.path.join(folder, f'site-{site}.log') for site in range(2)]
    write(logs[1], b'old\n' * 99)
    start('the logs of a run', [program, 'run', '--sites', '2', '--seed', '1', '--log', folder], 0, '', b'1 ready\n2 stored\n3 byte 8\naudit yes\n',
          given=b'preset 2\nstore 1 4096 8\nload 1 4096\n')
    for site, step in ((0, b''), (1, b'1 store 1 0 4096 8 > ')):
        with open(logs[site], 'rb') as file:
            found = file.read()
        if b'old' in found or not found.startswith(step):
            sys.exit(f'the logs of a run: site {site} has {found}')


def try_calls(program, folder):
    """Calls that fail, as strace makes them."""
    strace = ['strace', '-o', '/dev/null', '-e', 'trace=none']
    if shutil.which('strace') is None or subprocess.run(strace + ['true'], stderr=subprocess.DEVNULL, check=False).returncode != 0:
        print('calls that fail: not tried, as strace is not there or may not trace')
        return
    journal = os.path.join(folder, 'calls')

    def failing(*calls, new=True):
        asked = [word for call in calls for word in ('-e', f'inject={call}')]
        return ['strace', '-o', '/dev/null', *asked, *words(program, journal, new)]
    start('fsync of the folder fails', failing('fsync:error=EIO:when=2'), 3, "journal: its folder can't be made durable")
    stays('fsync of the folder fails', journal, b'')
    start('fdatasync fails', failing('fdatasync:error=EIO:when=2'), 3, FAILED)
    stays('fdatasync fails', journal, BEGUN_ALONE)
    write(journal, BEGUN_ALONE + b'step 1 ask 0')
    start('ftruncate fails at the start', failing('ftruncate:error=EIO:when=1', new=False), 3, "journal: it can't be made durable")
    write(journal, BEGUN_ALONE)
    start('fsync fails at the start', failing('fsync:error=EIO:when=1', new=False), 3, "journal: it can't be made durable")
    os.remove(journal)
    loose = f'{FAILED}: cut it to its first {len(BEGUN_ALONE)} bytes before the site starts again'
    start('fdatasync and ftruncate fail', failing('fdatasync:error=EIO:when=2', 'ftruncate:error=EIO:when=2'), 3, loose)
    os.truncate(journal, len(BEGUN_ALONE))
    start('after both', words(program, journal), 0, again(0, 1), TOLD)
    os.remove(journal)
    start('the first fdatasync fails', failing('fdatasync:error=EIO:when=1'), 3, FAILED)
    stays('the first fdatasync fails', journal, b'')
    start('the first fdatasync failed', words(program, journal, new=True), 0, '', TOLD)


def main():
    program = os.path.abspath(sys.argv[1] if len(sys.argv) > 1 else os.path.join(HERE, '..', '..', 'crates', 'shmdbg', 'out', 'shmdbg'))
    with tempfile.TemporaryDirectory() as folder:
        for trial in (try_files, try_openings, try_health, try_no_files, try_two, try_closed, try_full, try_streams, try_behind,
                      try_damaged, try_audits, try_later_steps, try_saves, try_calls):
            trial(program, folder)
    print(f'starts: {tried[0]}, each told as it has to be')


if __name__ == '__main__':
    main()
