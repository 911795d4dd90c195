#!/usr/bin/env python3
"""Tries both libraries: each call and its errors, over a stream that loses, repeats and reorders.

    try.py [--program PROGRAM] [--lose P] [--no-journal]

Builds what is in c/ with what finds misuse of memory. With journals it kills the sites' processes under the calls, too. The status is 1 where
something isn't as expected."""
import argparse
import errno
import os
import random
import select
import signal
import socket
import subprocess
import sys
import tempfile
import threading
import time

HERE = os.path.dirname(os.path.abspath(__file__))
sys.path.insert(0, os.path.join(HERE, 'python'))

from leddwyfan import (IPC_CREAT, IPC_EXCL, IPC_RMID, IPC_SET, IPC_STAT, PAGE_BYTES, SHM_RDONLY,  # noqa: E402
                       Incoming, Outgoing, Site)

PAGES = 2
TIMES = 20
LOCKS = 10
CROWD = 100
STOPPED_SECONDS = 0.5
AT_ONCE_SECONDS = 5
COUNTER_SECONDS = 400


class Stream(threading.Thread):
    """A stream for so many sites, which loses lines, repeats them and changes their order. `ends` are what the sites read and write."""

    def __init__(self, sites, lose, seed=1):
        super().__init__(daemon=True)
        self.lose, self.draw = lose, random.Random(seed)
        forth, back = [os.pipe() for _ in range(sites)], [os.pipe() for _ in range(sites)]
        self.ends = [(back[site][0], forth[site][1]) for site in range(sites)]
        self.incoming = [Incoming(pipe[0]) for pipe in forth]
        self.outgoing = [Outgoing(pipe[1]) for pipe in back]
        self.stopping = False
        self.lost = 0
        self.start()

    def carry(self, lines):
        self.draw.shuffle(lines)
        for line in lines:
            for outgoing in self.outgoing:
                if self.draw.random() < self.lose:
                    self.lost += 1
                    continue
                outgoing.push(line)
                if self.draw.random() < self.lose:
                    outgoing.push(line)

    def run(self):
        while not self.stopping:
            ready = select.select([incoming.descriptor for incoming in self.incoming], [], [], 0.01)[0]
            lines = []
            for incoming in self.incoming:
                if incoming.descriptor in ready:
                    lines += incoming.read_lines() or []
            self.carry(lines)
            for outgoing in self.outgoing:
                outgoing.write()

    def stop(self):
        self.stopping = True
        self.join()
        for descriptor in [end for ends in self.ends for end in ends] + [one.descriptor for one in self.incoming + self.outgoing]:
            os.close(descriptor)


def expect(condition, text):
    if not condition:
        sys.exit(f'try.py: not so: {text}')


def expect_error(number, call):
    try:
        told = call()
    except OSError as error:
        told = error.errno
    expect(told == number, f'{errno.errorcode[number]} was expected, and {told} came')


def start_sites(options, stream, folder, name):
    sites = len(stream.ends)
    journals = [None if options.no_journal else os.path.join(folder, f'{name}-{me}') for me in range(sites)]
    return [Site.start(options.program, sites, me, PAGES, *stream.ends[me], journal=journals[me], begin=journals[me] is not None)
            for me in range(sites)]


def try_blocks(site, data):
    """These bytes stand at 100; what is read is what stands there, of whatever length, and up to two pages."""
    memory = bytes(100) + data + bytes(PAGES * PAGE_BYTES - 100 - len(data))
    ranges = ((PAGE_BYTES - 1, 1), (PAGE_BYTES, 1), (PAGE_BYTES - 1, 2), (PAGE_BYTES - 2, 3), (PAGE_BYTES - 3, 4), (PAGE_BYTES - 6, 11),
              (200, 1), (201, 2), (202, 3), (203, 4), (0, len(memory)))
    for offset, length in ranges:
        expect(site.shm_read(0, offset, length) == memory[offset:offset + length], f'{length} bytes at {offset} are read')
    expect(site.shm_read(0, 0, 0) == b'' == site.shm_read(63, 0, 0), 'no bytes are read')
    expect_error(errno.EFAULT, lambda: site.shm_read(0, len(memory), 1))
    expect_error(errno.EFAULT, lambda: site.shm_read(0, len(memory) - 1, 2))
    expect_error(errno.EINVAL, lambda: site.shm_read(63, 0, 1))
    expect_error(errno.EINVAL, lambda: site.shm_read(63, 4090, 20))


def try_ends(site):
    """At the greatest offset a site is asked, and refuses. What goes further no line can ask for, and the library refuses it at once."""
    last = (1 << 32) - 1
    expect(site.shm_read(63, last, 0) == b'' and site.shm_write(63, last, b'') is None, 'no bytes are read or written at the end')
    expect_error(errno.EFAULT, lambda: site.shm_read(0, last, 1))
    expect_error(errno.EINVAL, lambda: site.shm_read(63, last, 1))
    expect_error(errno.EINVAL, lambda: site.shm_read(63, last - 1, 2))
    expect_error(errno.EFAULT, lambda: site.shm_write(0, last, b'x'))
    expect_error(errno.EINVAL, lambda: site.shm_write(63, last, b'x'))
    begin = time.monotonic()
    expect_error(errno.EFAULT, lambda: site.shm_read(63, last, 2))
    expect_error(errno.EFAULT, lambda: site.shm_read(63, 0, last + 2))
    expect_error(errno.EFAULT, lambda: site.shm_write(63, last, b'xy'))
    expect_error(errno.EFAULT, lambda: site.shm_write(0, last, b'xy'))
    expect_error(errno.EFAULT, lambda: site.shm_read(0, last + 1, 0))
    expect_error(errno.EFAULT, lambda: site.shm_read(0, last + 1, 1))
    expect_error(errno.EFAULT, lambda: site.shm_read(0, -1, 1))
    expect_error(errno.EINVAL, lambda: site.shm_read(0, 0, -1))
    for number in (-1, last + 1):
        expect_error(errno.EINVAL, lambda: site.shm_read(number, 0, 1))
        expect_error(errno.EINVAL, lambda: site.shm_write(number, 0, b'x'))
        expect_error(errno.EINVAL, lambda: site.shm_get(number, 1, IPC_CREAT))
        expect_error(errno.EINVAL, lambda: site.shm_get(5, number))
        expect_error(errno.EINVAL, lambda: site.shm_at(number))
        expect_error(errno.EINVAL, lambda: site.shm_dt(number))
        expect_error(errno.EINVAL, lambda: site.shm_ctl(number, IPC_STAT))
        expect_error(errno.EINVAL, lambda: site.shm_ctl(0, IPC_SET, uid=number))
        expect_error(errno.EINVAL, lambda: site.shm_ctl(0, IPC_SET, gid=number))
    expect(time.monotonic() < begin + AT_ONCE_SECONDS, 'what no line can ask for is refused at once')


def try_calls(one, other):
    data = random.Random(1).randbytes(8000)
    one.shm_write(0, 100, data)
    expect(other.shm_read(0, 100, 8000) == data, 'what was written is read')
    try_blocks(one, data)
    try_blocks(other, data)
    try_ends(one)
    shmid = one.shm_get(5, 5000, IPC_CREAT | 0o640)
    expect(other.shm_get(5, 100) == shmid, 'a key names one segment')
    expect_error(errno.EEXIST, lambda: other.shm_get(5, 100, IPC_CREAT | IPC_EXCL))
    expect_error(errno.EINVAL, lambda: other.shm_get(5, 5001))
    expect_error(errno.ENOENT, lambda: one.shm_get(6, 100))
    at, read_only = one.shm_at(shmid), other.shm_at(shmid, SHM_RDONLY)
    one.shm_write(at, 2 * PAGE_BYTES - 1, b'z')
    expect(other.shm_read(read_only, 2 * PAGE_BYTES - 1, 1) == b'z', 'the last byte is read')
    expect_error(errno.EACCES, lambda: other.shm_write(read_only, 0, b'x'))
    expect_error(errno.EFAULT, lambda: one.shm_read(at, 2 * PAGE_BYTES, 1))
    status = one.shm_ctl(shmid, IPC_STAT)
    expect((status.key, status.mode, status.size, status.attachments, status.marked) == (5, 0o640, 5000, 2, False), f'{status}')
    other.shm_ctl(shmid, IPC_SET, uid=status.uid, gid=7, mode=0o600)
    expect(one.shm_ctl(shmid, IPC_STAT).gid == 7, 'the group is set')
    one.shm_ctl(shmid, IPC_RMID)
    expect(one.shm_ctl(shmid, IPC_STAT).marked, 'the segment is marked')
    one.shm_dt(at)
    other.shm_dt(read_only)
    expect_error(errno.EINVAL, lambda: one.shm_dt(at))
    expect_error(errno.EINVAL, lambda: one.shm_read(at, 0, 1))
    expect_error(errno.EIDRM, lambda: one.shm_at(shmid))


def try_lock(sites):
    """One thread of one site at a time has the lock: what each adds to a counter is not lost."""
    one, other = sites
    for site in sites:
        site.shm_unlock(0, 0)
    expect(one.shm_trylock(0, 0) and not other.shm_trylock(0, 0) and not one.shm_trylock(0, 0), 'a lock is taken once')
    one.shm_unlock(0, 0)
    one.shm_write(0, 100, b'\0')

    def add(site):
        for _ in range(LOCKS):
            site.shm_lock(0, 0)
            site.shm_write(0, 100, bytes([site.shm_read(0, 100, 1)[0] + 1]))
            site.shm_unlock(0, 0)
    threads = [threading.Thread(target=add, args=(site,)) for site in (one, other, other)]
    for thread in threads:
        thread.start()
    for thread in threads:
        thread.join()
    expect(one.shm_read(0, 100, 1) == bytes([3 * LOCKS]), f'three threads add {LOCKS} under a lock')
    expect_error(errno.EFAULT, lambda: one.shm_lock(0, PAGES * PAGE_BYTES))


def try_forked(site):
    """In a process that was forked since the start each call fails at once, and a stop does nothing."""
    child = os.fork()
    if child == 0:
        try:
            expect_error(errno.ECHILD, lambda: site.shm_read(0, 0, 1))
            expect_error(errno.ECHILD, lambda: site.shm_get(5, 100))
            expect_error(errno.ECHILD, lambda: site.leave(0))
            site.stop()
            os._exit(0)
        except BaseException:
            os._exit(1)
    expect(os.waitpid(child, 0)[1] == 0, 'a forked process has no site')


def try_numbers(options):
    """There is no site 2 of two, and no seventeen sites."""
    for sites, me in ((2, 2), (2, -1), (17, 0)):
        expect_error(errno.EINVAL, lambda: Site.start(options.program, sites, me, PAGES, 0, 1))


def try_crowd(writer, reader):
    """More loads and blocks at once than may wait at a site, while the owner of their page is stopped: those that find no place are asked
    again. A byte of a page that is here is read all the same."""
    writer.shm_write(0, PAGE_BYTES, b'here')
    expect(reader.shm_read(0, PAGE_BYTES, 4) == b'here', 'a page is here')
    writer.shm_write(0, 0, b'crowd')
    told = []
    lengths = [1 + count % 5 for count in range(CROWD)]
    threads = [threading.Thread(target=lambda length: told.append(reader.shm_read(0, 0, length)), args=(length,)) for length in lengths]
    writer._process.send_signal(signal.SIGSTOP)
    try:
        for thread in threads:
            thread.start()
        time.sleep(STOPPED_SECONDS)
        expect(reader.shm_read(0, PAGE_BYTES, 1) == b'h', 'a byte whose page is here is read')
    finally:
        writer._process.send_signal(signal.SIGCONT)
    for thread in threads:
        thread.join()
    expect(sorted(told) == sorted(b'crowd'[:length] for length in lengths), f'{CROWD} threads read a byte or a block each')


def kill_often(sites, ended, draw):
    """Kills a site's process now and then. Each site bears 16 of it."""
    for count in range(8 * len(sites)):
        if ended.wait(draw.uniform(0.05, 0.3)):
            return
        sites[count % len(sites)]._process.kill()


def attach_for_good(site, shmid):
    """Attaches, whatever happened to a call before: EIO says that nobody knows whether it was executed."""
    for _ in range(TIMES):
        try:
            return site.shm_at(shmid)
        except OSError as error:
            expect(error.errno == errno.EIO, f'{error}')
    sys.exit('try.py: an attach fails again and again')


def try_kills(sites):
    """What was written is read, and no segment call is made twice, while processes are killed."""
    ended = threading.Event()
    killer = threading.Thread(target=kill_often, args=(sites, ended, random.Random(2)))
    killer.start()
    shmid = sites[0].shm_get(0, PAGE_BYTES, IPC_CREAT | 0o600)
    for count in range(TIMES):
        writer, reader = sites[count % len(sites)], sites[(count + 1) % len(sites)]
        data = bytes([count + 1] * 100)
        writer.shm_write(0, 4090, data)
        expect(reader.shm_read(0, 4090, 100) == data, f'write {count} is read')
        at = attach_for_good(writer, shmid)
        writer.shm_write(at, count, data[:1])
    ended.set()
    killer.join()


def try_stopped(site):
    """A call behind the stop fails, and nothing is written to a file that has the number of what was the process's input."""
    with tempfile.TemporaryFile() as other:
        number = site._to_site.descriptor
        site.stop()
        os.dup2(other.fileno(), number)
        expect_error(errno.ESHUTDOWN, lambda: site.shm_read(0, 0, 1))
        os.close(number)
        expect(os.fstat(other.fileno()).st_size == 0, 'a stopped site writes nothing')


def try_socket(options):
    """Two sites have a socket each as their stream, which they read and write."""
    ends = socket.socketpair()
    # The site keeps the files that it is given: nobody else does here.
    sites = [Site.start(options.program, 2, me, PAGES, end.makefile('rb', 0), end.makefile('wb', 0)) for me, end in enumerate(ends)]
    data = random.Random(4).randbytes(PAGES * PAGE_BYTES)
    sites[0].shm_write(0, 0, data)
    expect(sites[1].shm_read(0, 0, len(data)) == data, 'what was written is read over one socket')
    for site in sites:
        site.stop()
    for end in ends:
        end.close()
    print('one socket to read and to write: as expected')


def try_library(options, folder):
    stream = Stream(2, options.lose)
    sites = start_sites(options, stream, folder, 'calls')
    try_calls(*sites)
    expect_error(errno.EINVAL, lambda: sites[0].shm_at(100000))
    try_crowd(*sites)
    try_lock(sites)
    try_forked(sites[0])
    try_numbers(options)
    restarts = 0
    if not options.no_journal:
        try_kills(sites)
        restarts = sum(16 - site._restarts for site in sites)
    for site in sites:
        try_stopped(site)
    stream.stop()
    print(f'calls in Python: as expected; {stream.lost} lines lost, {restarts} processes killed')


def children_of(parent):
    listed = subprocess.run(['ps', '-A', '-o', 'pid=,ppid='], stdout=subprocess.PIPE, check=True).stdout.decode()
    pairs = [line.split() for line in listed.splitlines()]
    return [int(child) for child, of in pairs if int(of) == parent]


def kill_children_often(processes, ended, draw):
    """Kills the sites of these processes now and then."""
    for count in range(6 * len(processes)):
        if ended.wait(draw.uniform(0.2, 1)):
            return
        for child in children_of(processes[count % len(processes)].pid):
            os.kill(child, signal.SIGKILL)


def try_counters(options, folder):
    """Three sites share a counter: one in C, one in Python, one in C. With journals the sites are killed meanwhile."""
    stream = Stream(3, options.lose)
    counters = [[os.path.join(folder, 'counter')], [os.path.join(HERE, 'python', 'counter.py')], [os.path.join(folder, 'counter')]]
    processes = []
    for me, words in enumerate(counters):
        words += ['-n', '3', '-m', str(me), '-p', options.program, '-t', str(TIMES)]
        words += [] if options.no_journal else ['-j', os.path.join(folder, f'counter-{me}'), '-N']
        reader, writer = os.dup(stream.ends[me][0]), os.dup(stream.ends[me][1])
        processes.append(subprocess.Popen(words, stdin=reader, stdout=writer, stderr=subprocess.PIPE))
        os.close(reader)
        os.close(writer)
    ended = threading.Event()
    killer = threading.Thread(target=kill_children_often, args=(processes, ended, random.Random(3)))
    if not options.no_journal:
        killer.start()
    for process in processes:
        lines = process.communicate(timeout=COUNTER_SECONDS)[1].decode().splitlines()
        told = [line for line in lines if not line.startswith(('shmdbg: journal: ', 'shmdbg: health '))]
        ended.set()
        expect(told == [f'counter {3 * TIMES}'] and process.returncode == 0, f'three times {TIMES} is: {told}')
    stream.stop()
    print(f'counters in C and Python: 3 times {TIMES} is {3 * TIMES}; {stream.lost} lines lost')


def main():
    parser = argparse.ArgumentParser()
    parser.add_argument('--program', default=os.path.join(HERE, '..', 'crates', 'shmdbg', 'out', 'shmdbg'))
    parser.add_argument('--lose', type=float, default=0.1)
    parser.add_argument('--no-journal', action='store_true')
    options = parser.parse_args()
    begin = time.monotonic()
    signal.signal(signal.SIGTERM, lambda *_: sys.exit(1))
    with tempfile.TemporaryDirectory(prefix='clients-') as folder:
        make = ['make', '-s', '-C', os.path.join(HERE, 'c'), f'BUILD={folder}', 'SANITIZE=-g -O1 -fsanitize=address,undefined']
        subprocess.run(make, check=True)
        subprocess.run([os.path.join(folder, 'calls'), options.program], check=True)
        try_library(options, folder)
        try_socket(options)
        try_counters(options, folder)
    print(f'{time.monotonic() - begin:.0f} seconds')


if __name__ == '__main__':
    main()
