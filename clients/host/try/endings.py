"""Programs and daemons that end while a daemon starts its site anew."""
import os
import random
import signal
import socket
import time

from cluster import Cluster, expect, within


def try_leaving(options):
    """Programs that leave while the daemon starts its site anew, so that the child that is to be the site has their connections, too."""
    cluster = Cluster(options, 2, journals=True)
    try:
        for _ in range(10):
            programs = [socket.socket(socket.AF_UNIX, socket.SOCK_SEQPACKET) for _ in range(400)]
            for program in programs:
                program.connect(cluster.socket(0))
            cluster.told(0, 'ipcs', '-m')
            os.kill(cluster.site_of(0), signal.SIGKILL)
            for program in programs:
                program.close()
            cluster.told(0, 'ipcs', '-m')
        expect(cluster.daemons[0].poll() is None, 'the daemon goes on')
    finally:
        cluster.stop()
    yield f'10 times 400 connections end while a site is started again; {cluster.audit()}'


def try_ending(options):
    """Daemons that are told to end while they start their sites anew: they end in order, and their journals are whole."""
    draw, times = random.Random(1), 20
    for _ in range(times):
        cluster = Cluster(options, 2, journals=True)
        try:
            cluster.told(0, 'ipcmk', '-M', '5000')
            os.kill(cluster.site_of(0), signal.SIGKILL)
            time.sleep(draw.uniform(0, 0.02))
            cluster.daemons[0].terminate()
            status = cluster.daemons[0].wait(within(20))
            expect(status == 0, f'a daemon that is told to end ends with {status}: {cluster.complaints()}')
        finally:
            cluster.stop()
        audit = cluster.audit()
    yield f'{times} daemons end while their sites are started anew; {audit}'
