"""Hosts over a carrier that loses, repeats and delays, whose sites are killed and go on from their journals."""
import contextlib
import random
import threading
import time

from cluster import Cluster, expect

ROUGH = ('5', '10', '30')


def kill_sites(cluster, ended, seed):
    """One, or several at once, some of them again while they read their journals. All come back before others are killed, and then have as long to
    work: else on a busy machine nothing would go on."""
    draw, took = random.Random(seed), 0
    while not ended.wait(took + draw.uniform(0.3, 1.5) * cluster.options.between_kills):
        begun, hosts = time.monotonic(), draw.sample(range(cluster.hosts), draw.choice((1, 1, 1, 2, cluster.hosts)))
        for me in hosts:
            cluster.kill_site(me)
        if draw.random() < 0.2 and not ended.wait(draw.uniform(0, 0.3)):
            cluster.kill_site(hosts[0])
        while not all(cluster.is_back(me) for me in hosts) and not ended.wait(0.05):
            pass
        took = time.monotonic() - begun


def odd_lines(complaints):
    """What is said beside deaths of sites, and how they go on."""
    return [line for line in complaints.splitlines() if 'was killed' not in line and not line.startswith('shmdbg: journal: steps taken again: ')]


@contextlib.contextmanager
def rough_cluster(options, seed):
    """Three hosts, a carrier that loses, repeats and delays, and sites that are killed and go on from their journals."""
    cluster = Cluster(options, 3, rough=ROUGH, journals=True, seed=seed)
    ended = threading.Event()
    killer = threading.Thread(target=kill_sites, args=(cluster, ended, seed))
    killer.start()
    try:
        yield cluster
    finally:
        ended.set()
        killer.join()
        complaints = cluster.stop()
    odd, cluster.kills = odd_lines(complaints), complaints.count('was killed')
    expect(not odd, '\n'.join(odd))
