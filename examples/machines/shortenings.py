#!/usr/bin/env python3
"""Makes a journal shorter where the disk is full at each of the writes, or another call fails, and looks at what is left: by `shorten`, and by a
site that runs.

    shortenings.py [PROGRAM]      without PROGRAM: crates/shmdbg/out/shmdbg

What fails leaves the whole journal under its name, and nothing beside it that stops the next attempt; a site that runs goes on. Each time the
site starts again and loads what it stored last; with room the journal is made shorter, and an audit takes it and the whole one in a row. The new
one is durable before it takes the name, and then its folder is. The calls that fail, and their order, need strace. The status is 1 where
something else is found."""
import os
import re
import resource
import shutil
import signal
import subprocess
import sys
import tempfile

HERE = os.path.dirname(os.path.abspath(__file__))
STORES = 40
FULL = 'the new one can\'t be written'
# Each call that makes a journal shorter, on which of its names, with what is told where that call fails.
CALLS = [('openat:error=ENOSPC', '.new', FULL), ('write:error=ENOSPC', '.new', FULL), ('fsync:error=ENOSPC', '.new', FULL),
         ('fsync:error=EIO', '.new', FULL), ('link,linkat:error=ENOSPC', '', 'it can\'t be kept under another name'),
         ('rename,renameat,renameat2:error=ENOSPC', '.new', 'the new one can\'t take its name')]


class Journal:
    """A site's journal in a folder of its own."""

    def __init__(self, program, folder):
        self.program, self.folder = program, folder
        self.name = os.path.join(folder, 'site')
        self.words = [program, 'site', '--sites', '1', '--me', '0', '--preset', '2', '--journal', self.name]
        self.stored = 0

    def run(self, words, status, given='', **options):
        done = subprocess.run(words, input=given, capture_output=True, text=True, timeout=60, check=False, **options)
        if done.returncode != status:
            sys.exit(f'{words}: status {done.returncode}, told {done.stdout}, on standard error {done.stderr}')
        return done

    def serve(self, *further, tracing=(), status=0):
        """Starts the site, which loads what it stored last, and then stores something else. Answers what stands on standard error."""
        loads = 'ask 0 l load 0 7\n' if self.stored else ''
        stores = ''.join(f'ask 0 s{number} store 0 {number % 50} {number % 250}\n' for number in range(STORES))
        last = (self.stored + 1) % 250
        done = self.run([*tracing, *self.words, *further], status, loads + stores + f'ask 0 t store 0 7 {last}\n')
        if self.stored and f'tell 0 l byte {self.stored}\n' not in done.stdout:
            sys.exit(f'the last store was {self.stored}: told {done.stdout}')
        if 'tell 0 t stored\n' in done.stdout:
            self.stored = last
        elif status == 0:
            sys.exit(f'the last store is not told: {done.stdout}')
        return done.stderr

    def bytes(self):
        with open(self.name, 'rb') as file:
            return file.read()

    def shorten(self, status, tracing=(), **options):
        return self.run([*tracing, self.program, 'shorten', self.name], status, **options)

    def fails(self, why, tracing=(), **options):
        """An attempt that fails: the whole journal has its name, and nothing else stands there."""
        whole, names = self.bytes(), sorted(os.listdir(self.folder))
        done = self.shorten(3, tracing, **options)
        if done.stdout or done.stderr != f'shmdbg: {self.name}: journal: {why}\n':
            sys.exit(f'{tracing}: told {done.stdout}, on standard error {done.stderr}')
        left = sorted(os.listdir(self.folder))
        if self.bytes() != whole or [name for name in left if name not in names and not self.is_whole(name, whole)]:
            sys.exit(f'{tracing}: the journal has changed, or there are {left}')

    def fails_running(self, why, tracing):
        """An attempt of a site that runs fails: it says why, and goes on."""
        whole = self.bytes()
        errors = self.serve('--shorten-at', '1', tracing=tracing)
        if f'shmdbg: not made shorter: journal: {why}\n' not in errors or not self.bytes().startswith(whole):
            sys.exit(f'{tracing}: on standard error {errors}, or the journal is no longer whole')

    def ends_unlisted(self, tracing):
        """The folder can't be made durable: the site ends."""
        errors = self.serve('--shorten-at', '1', tracing=tracing, status=3)
        if "shmdbg: journal: its folder can't be made durable\n" not in errors:
            sys.exit(f'{tracing}: on standard error {errors}')

    def stays_unlisted(self, tracing):
        """The folder can't be made durable: the journal is shorter, and the whole one has another name, or a crash brings it back."""
        whole = self.bytes()
        done = self.shorten(3, tracing)
        if done.stderr != f"shmdbg: {self.name}: journal: its folder can't be made durable\n":
            sys.exit(f'{tracing}: told {done.stdout}, on standard error {done.stderr}')
        kept = [name for name in os.listdir(self.folder) if self.is_whole(name, whole)]
        if self.bytes() == whole or len(kept) != 1:
            sys.exit(f'{tracing}: the journal has not changed, or the whole one is not kept once: {kept}')

    def is_whole(self, name, whole):
        """The whole journal may have got another name already."""
        with open(os.path.join(self.folder, name), 'rb') as file:
            return name.startswith('site.') and not name.endswith('.new') and file.read() == whole

    def succeeds(self):
        """With room it is made shorter, and all of its steps are kept."""
        whole = self.bytes()
        kept = self.shorten(0).stdout.splitlines()[0].removeprefix('kept ')
        with open(kept, 'rb') as file:
            if file.read() != whole or self.bytes() == whole:
                sys.exit(f'{kept} is not the whole journal, or the journal is no other')
        self.serve()
        if not self.run([self.program, 'audit', '--sites', '1', self.name], 0).stdout.startswith('audit yes\n'):
            sys.exit('the audit says no')


    def succeeds_running(self):
        """With room a site that runs makes it shorter, and all of its steps are kept."""
        errors = self.serve('--shorten-at', '1')
        if 'shmdbg: journal: made shorter: was ' not in errors:
            sys.exit(f'not made shorter: {errors}')
        self.serve()
        if not self.run([self.program, 'audit', '--sites', '1', self.name], 0).stdout.startswith('audit yes\n'):
            sys.exit('the audit says no')

    def looks_at_order(self, words, given=''):
        """The new journal is durable before it takes the name, and then its folder is made durable."""
        log = os.path.join(self.folder, 'trace')
        self.run(['strace', '-y', '-o', log, '-e', 'trace=fsync,rename,renameat,renameat2', *words], 0, given)
        with open(log, encoding='utf-8', errors='replace') as file:
            calls = file.read()
        os.remove(log)
        name, folder = re.escape(os.path.realpath(self.name)), re.escape(os.path.realpath(self.folder))
        if not re.search(rf'fsync\(\d+<{name}\.new>\) += 0\n(.*\n)*rename\w*\(.*\.new".*\) += 0\n(.*\n)*fsync\(\d+<{folder}>\) += 0\n', calls):
            sys.exit(f'{words}: {calls}')


def limit_to(count):
    """No file may have more bytes."""
    def limit():
        signal.signal(signal.SIGXFSZ, signal.SIG_IGN)
        resource.setrlimit(resource.RLIMIT_FSIZE, (count, count))
    return limit


def try_full(program, folder):
    """A disk that is full after so many bytes of the new journal."""
    journal = Journal(program, folder)
    journal.serve('--new')
    with tempfile.TemporaryDirectory() as aside:
        other = os.path.join(aside, 'site')
        shutil.copy(journal.name, other)
        journal.run([program, 'shorten', other], 0)
        length = os.path.getsize(other)
    rooms = sorted({*range(0, length, 97), length - 1})
    for room in rooms:
        journal.fails(FULL, preexec_fn=limit_to(room))
    journal.serve()
    journal.succeeds()
    return len(rooms)


def try_calls(program, folder):
    """Each call fails once."""
    trace = ['strace', '-o', '/dev/null', '-e', 'trace=none']
    if shutil.which('strace') is None or subprocess.run([*trace, 'true'], stderr=subprocess.DEVNULL, check=False).returncode != 0:
        return None
    journal = Journal(program, folder)
    journal.serve('--new')
    for call, end, why in CALLS:
        journal.fails(why, ['strace', '-o', '/dev/null', '-P', journal.name + end, '-e', f'inject={call}'])
        journal.serve()
        journal.fails_running(why, ['strace', '-o', '/dev/null', '-P', journal.name + end, '-e', f'inject={call}'])
        journal.serve()
    unlisted = ['strace', '-o', '/dev/null', '-P', folder, '-e', 'inject=fsync:error=EIO']
    journal.stays_unlisted(unlisted)
    journal.serve()
    journal.ends_unlisted(unlisted)
    journal.serve()
    journal.succeeds()
    journal.succeeds_running()
    journal.looks_at_order([program, 'shorten', journal.name])
    journal.looks_at_order([*journal.words, '--shorten-at', '1'], 'ask 0 s store 0 9 9\n')
    journal.looks_at_order([*journal.words, '--shorten-at', '1', '--forget'], 'ask 0 s store 0 9 9\n')
    return 2 * (len(CALLS) + 1)


def main():
    program = os.path.abspath(sys.argv[1] if len(sys.argv) > 1 else os.path.join(HERE, '..', '..', 'crates', 'shmdbg', 'out', 'shmdbg'))
    with tempfile.TemporaryDirectory() as folder:
        rooms = try_full(program, folder)
    with tempfile.TemporaryDirectory() as folder:
        calls = try_calls(program, folder)
    told = 'calls that fail not tried, as strace is not there or may not trace' if calls is None else f'{calls} calls that fail'
    print(f'shortenings: a full disk {rooms} times, {told}: nothing lost, and then made shorter')


if __name__ == '__main__':
    main()
