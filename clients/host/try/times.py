"""What costs how much: medians, in a cluster of two hosts."""
import os
import statistics
import subprocess
import time

from cluster import Cluster, keys


def medians(rows):
    return ' '.join(f'{statistics.median(float(row[place]) for row in rows):.1f}' for place in range(len(rows[0])))


LOCKS = {'spin': 10000, 'near': 10000, 'mutex': 4000, 'peterson': 1, 'turns': 1}  # so that the hosts meet for a while


def time_all(options):
    """Medians of five turns, one after the other: what a page that is here costs beside the system's segment, and what one that comes costs."""
    seen = {}
    cluster = Cluster(options, 2, journals=options.journals)
    try:
        for _ in range(5):
            key, own, other = next(keys), next(keys), next(keys)
            plain = subprocess.run([os.path.join(options.build, 'try', 'speed'), str(key), 'loads'], stdout=subprocess.PIPE, text=True).stdout
            subprocess.run(['ipcrm', '-M', str(key)])
            seen.setdefault("the system's segment: million loads, stores, atomic adds a second", []).append(plain.split())
            seen.setdefault('a page that is here: the same', []).append(cluster.told(0, './speed', key, 'loads').split())
            holder = cluster.on(0, './speed', own, 'write', 32, 3)
            time.sleep(1)
            seen.setdefault('a fault that the own host serves, microseconds', []).append([cluster.told(0, './speed', own, 'write', 32)])
            holder.wait()
            cluster.told(0, './speed', other, 'write', 32)
            seen.setdefault('a page moves to be read, microseconds', []).append([cluster.told(1, './speed', other, 'read', 32)])
            seen.setdefault('a page moves to be written, microseconds', []).append([cluster.told(1, './speed', own, 'write', 32)])
            filled = next(keys)
            cluster.told(0, './speed', filled, 'fill', 64)
            says = '256 KiB that the other host has filled, read for the first time, milliseconds'
            seen.setdefault(says, []).append([cluster.told(1, './speed', filled, 'scan', 64)])
            word = next(keys)
            rounds = cluster.together(*[(me, './ring', word, one, options.times) for me, one in enumerate(('ping', 'pong'))])
            seen.setdefault('ping-pong, rounds a second', []).append([rounds[0].split()[1]])
            records = next(keys)
            rounds = cluster.together((0, './ring', records, 'put', 20 * options.times), (1, './ring', records, 'get', 20 * options.times))
            seen.setdefault('ring, records a second', []).append([rounds[1].split()[1]])
            for kind, times in LOCKS.items():
                lock = next(keys)
                told = cluster.together(*[(me, './lock', lock, kind, me, 2, times * options.times) for me in range(2)])
                seen.setdefault(f'{kind}, rounds a second of each host', []).append([line.split()[1] for line in told])
    finally:
        cluster.stop()
    for says, rows in seen.items():
        print(f'  {says}: {medians(rows)}')
