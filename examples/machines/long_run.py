#!/usr/bin/env python3
"""Has one site make steps, load by store, and looks whether its memory and its journal stay as they are.

    long_run.py [--program PROGRAM] [--steps N] [--shorten-at BYTES] [--keep]

The site makes its journal shorter at so many bytes and forgets the whole one, unless it is to be kept. After each tenth of the steps the site's
memory, the journal's bytes and the number of whole journals are told. The status is 1 where an answer is wrong, where the journal has more than
twice the bytes at which it is made shorter, and one batch, or where the memory grows by more than a tenth, and 256 KB, after the first tenth."""
import argparse
import glob
import os
import re
import subprocess
import sys
import tempfile
import threading

PLACES = 4000
BATCH_BYTES = 40000


def asks(first, count):
    """So many asks from this number on: a store, and then a load of what was stored."""
    lines = []
    for number in range(first, first + count):
        offset, value = number // 2 % PLACES, number // 2 % 251
        lines.append(f'ask 0 a store 0 {offset} {value}\n' if number % 2 == 0 else f'ask 0 a load 0 {offset}\n')
    return ''.join(lines).encode()


def answers(first, count):
    return ''.join('tell 0 a stored\n' if number % 2 == 0 else f'tell 0 a byte {number // 2 % 251}\n' for number in range(first, first + count)).encode()


def memory(process):
    """How many bytes of its memory are in use."""
    with open(f'/proc/{process.pid}/status') as file:
        return 1024 * int(re.search(r'VmRSS:\s+(\d+)', file.read())[1])


class Site:
    def __init__(self, program, journal, shorten_at, keeps):
        self.journal = journal
        words = [program, 'site', '--sites', '1', '--me', '0', '--preset', '4', '--journal', journal, '--new', '--shorten-at', str(shorten_at)]
        self.process = subprocess.Popen(words + ['--forget'] * (not keeps), stdin=subprocess.PIPE, stdout=subprocess.PIPE, stderr=subprocess.DEVNULL)

    def make(self, first, count):
        """Asks so often, and answers whether all answers are right."""
        writer = threading.Thread(target=lambda: (self.process.stdin.write(asks(first, count)), self.process.stdin.flush()))
        writer.start()
        wanted = answers(first, count)
        told = self.process.stdout.read(len(wanted))
        writer.join()
        return told == wanted

    def measure(self):
        return memory(self.process), os.path.getsize(self.journal), len(glob.glob(glob.escape(self.journal) + '.[0-9]*'))


def run(site, options):
    """Answers what is wrong, if anything is."""
    tenth, at_once, most = options.steps // 10, 100000, None
    for part in range(10):
        for first in range(part * tenth, (part + 1) * tenth, at_once):
            if not site.make(first, min(at_once, (part + 1) * tenth - first)):
                return f'a wrong answer behind {first} steps'
        used, length, files = site.measure()
        print(f'steps {(part + 1) * tenth}, memory {used}, journal {length}, whole journals kept {files}', flush=True)
        most = most or used * 1.1 + 256000
        if used > most or length > 2 * options.shorten_at + BATCH_BYTES:
            return 'it grows'
    return None


def main():
    here = os.path.dirname(os.path.abspath(__file__))
    parser = argparse.ArgumentParser()
    parser.add_argument('--program', default=os.path.join(here, '..', '..', 'crates', 'shmdbg', 'out', 'shmdbg'))
    parser.add_argument('--steps', type=int, default=10000000)
    parser.add_argument('--shorten-at', type=int, default=1000000)
    parser.add_argument('--keep', action='store_true')
    options = parser.parse_args()
    with tempfile.TemporaryDirectory(prefix='long-run-') as folder:
        site = Site(options.program, os.path.join(folder, 'journal'), options.shorten_at, options.keep)
        wrong = run(site, options)
        site.process.stdin.close()
        status = site.process.wait()
    if wrong or status:
        sys.exit(f'wrong: {wrong}, status {status}')


if __name__ == '__main__':
    main()
