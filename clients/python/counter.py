#!/usr/bin/env python3
"""Sites that share a counter: each adds 1 to it so many times, and at the end it is the sum.

    counter.py -n SITES -m ME [-p PROGRAM] [-t TIMES] [-j JOURNAL]

The stream comes in on standard input and goes out on standard output, as for `shmdbg site`; the counter's value is told on standard error.
Run one for each site; clients/c/counter.c is the same program, and the two may be mixed.

The segment has a page for each site's flag of the lock (shm_lock), and one more page: at 0 to 15 whether each site is done, and at 64 the
counter, four bytes with the lowest first."""
import argparse
import errno
import sys
import time

from leddwyfan import IPC_CREAT, MOST_SITES, PAGE_BYTES, Site

KEY = 77
LOCK = 0
DONE = MOST_SITES * PAGE_BYTES
COUNTER = DONE + 64
SEGMENT_BYTES = DONE + PAGE_BYTES
COUNTER_BYTES = 4
SPIN_SECONDS = 0.002
TRIES = 4
GIVE_UP_SECONDS = 300
LEAVE_SECONDS = 3


def again_if_unknown(call):
    """Makes a segment call, and again where its site was killed under it: it may have been executed, and does no harm a second time."""
    for _ in range(TRIES):
        try:
            return call()
        except OSError as error:
            if error.errno != errno.EIO:
                raise
    return call()


class Counter:
    """The counter, as one site sees it."""

    def __init__(self, site, sites, me):
        self.site, self.sites, self.me = site, sites, me
        shmid = again_if_unknown(lambda: site.shm_get(KEY, SEGMENT_BYTES, IPC_CREAT | 0o666))
        self.at = again_if_unknown(lambda: site.shm_at(shmid))
        self.give_up = time.monotonic() + GIVE_UP_SECONDS

    def wait_until(self, condition):
        while not condition():
            if time.monotonic() > self.give_up:
                raise TimeoutError('the other sites took too long')
            time.sleep(SPIN_SECONDS)

    def value(self):
        return int.from_bytes(self.site.shm_read(self.at, COUNTER, COUNTER_BYTES), 'little')

    def add(self):
        self.site.shm_lock(self.at, LOCK)
        self.site.shm_write(self.at, COUNTER, (self.value() + 1).to_bytes(COUNTER_BYTES, 'little'))
        self.site.shm_unlock(self.at, LOCK)

    def finish(self):
        """Waits until all sites are done."""
        self.site.shm_write(self.at, DONE + self.me, b'\1')
        self.wait_until(lambda: all(self.site.shm_read(self.at, DONE, self.sites)))


def main():
    parser = argparse.ArgumentParser()
    parser.add_argument('-n', dest='sites', type=int, required=True, help='how many sites')
    parser.add_argument('-m', dest='me', type=int, required=True, help='which of them this is')
    parser.add_argument('-p', dest='program', default='shmdbg', help='the command')
    parser.add_argument('-t', dest='times', type=int, default=100, help='how often it adds 1')
    parser.add_argument('-j', dest='journal', help="the journal's file")
    parser.add_argument('-N', dest='begin', action='store_true', help='begins the journal')
    options = parser.parse_args()
    with Site.start(options.program, options.sites, options.me, 1, sys.stdin, sys.stdout, options.journal, options.begin) as site:
        counter = Counter(site, options.sites, options.me)
        for _ in range(options.times):
            counter.add()
        counter.finish()
        print(f'counter {counter.value()}', file=sys.stderr)
        # The others may not have seen yet that all are done, and need this site for it.
        site.leave(LEAVE_SECONDS)


if __name__ == '__main__':
    main()
