"""Threads of two hosts that sleep in futexes of one page: while nobody wakes them nothing moves, and from either host they are woken soon."""
import subprocess
import time

from cluster import Cluster, answer_of, expect, keys, within

PAGE_LINE = 5464  # a line that brings a page has at least so many letters
HOSTS, THREADS, WAKES, QUIET, LONGEST = 2, 3, 12, 3, 5000  # threads of each host; seconds; milliseconds


def pages_carried(cluster):
    """How many pages the carrier has handed on, at most."""
    with open(f'/proc/{cluster.carrier.pid}/io') as counts:
        return next(int(line.split()[1]) for line in counts if line.startswith('wchar')) // PAGE_LINE


def moves_a_second(cluster, seconds):
    before = pages_carried(cluster)
    time.sleep(seconds)
    return (pages_carried(cluster) - before) / seconds


def begin(cluster, kind, how, wakes):
    key = next(keys)
    waker = cluster.on(0, './sleepers', key, kind, how, stdin=subprocess.PIPE, bufsize=1)
    expect(waker.stdout.readline() == 'ready\n', f'sleepers {kind} {how}')
    return waker, [cluster.on(me, './sleepers', key, kind, THREADS, wakes) for me in range(cluster.hosts)]


def wait_for_quiet(cluster):
    """The page is where each host can read it, and then no more of it is carried."""
    begun = time.monotonic()
    while moves_a_second(cluster, QUIET) > 0:
        expect(time.monotonic() < begun + within(20 * QUIET), f'a page in which all sleep moves {moves_a_second(cluster, QUIET):.1f} times a second')


def wake(waker, sleepers, wakes):
    """After pauses that differ, so that some come while the other host waits before it looks again. The medians and longest times, by host."""
    for turn in range(wakes):
        time.sleep(0.2 + 0.037 * turn % 0.5)
        waker.stdin.write('\n')
        waker.stdin.flush()
    told = [answer_of(sleeper) for sleeper in sleepers]
    expect(all(float(line.split()[1]) < within(LONGEST) for line in told), f'from a wake until a sleeper knows, milliseconds: {told}')
    return f'woken after {", ".join(f"{median} ms at most {longest}" for median, longest in map(str.split, told))}'


def try_kind(cluster, kind, how):
    """With `store`, host 0 stores to the page all the while: host 1 may look at it now and then."""
    wakes = 1 if kind in ('mutex', 'semaphore') else WAKES
    waker, sleepers = begin(cluster, kind, how, wakes)
    try:
        if how == 'wake':
            wait_for_quiet(cluster)
            return f'{kind}: no move for {QUIET} seconds; {wake(waker, sleepers, wakes)}'
        time.sleep(QUIET)
        moves = moves_a_second(cluster, QUIET)
        expect(moves < 60, f'a page that one host stores to while others sleep moves {moves:.1f} times a second')
        woken = wake(waker, sleepers, wakes)
        waker.stdin.close()
        return f'{kind}, with stores beside it: {moves:.1f} moves a second, {float(waker.stdout.read()) / 1e6:.1f} million stores; {woken}'
    finally:
        for program in (waker, *sleepers):
            program.kill()
            program.wait()


def try_sleepers(options):
    cluster = Cluster(options, HOSTS)
    try:
        for kind in ('futex', 'condition', 'mutex', 'semaphore'):
            yield try_kind(cluster, kind, 'wake')
        for kind in ('futex', 'condition'):
            yield try_kind(cluster, kind, 'store')
    finally:
        complaints = cluster.stop()
    expect(complaints == '', complaints)
