"""Daemons that can't begin, and sockets that nobody answers at: each is told in a sentence."""
import os
import subprocess
import time

from cluster import Cluster, expect, within


def refusal(options, *words, **how):
    """What a daemon says that can't begin."""
    command = [os.path.join(options.build, 'leddwyfan-host'), '--me', '0', '--program', options.program, *words]
    told = subprocess.run(command, stdin=subprocess.DEVNULL, stdout=subprocess.DEVNULL, stderr=subprocess.PIPE, text=True, timeout=within(20), **how)
    return told.stderr


def try_refusals(options):
    """Whatever a daemon lacks it says in a sentence."""
    cluster = Cluster(options, 2)
    at = lambda name: ('--socket', os.path.join(cluster.folder, name))
    one = ('--sites', '1')
    try:
        told = {'another daemon has': refusal(options, *one, '--socket', cluster.socket(0)),
                'too long': refusal(options, *one, *at('x' * 120)),
                "can't be made": refusal(options, *one, '--socket', '/nowhere/socket'),
                "can't be started": refusal(options, *one, *at('a'), '--program', '/nowhere/shmdbg'),
                'journal': refusal(options, *one, *at('b'), '--journal', '/nowhere/journal', '--new'),
                'give a carrier': refusal(options, '--sites', '2', *at('c')),
                'run the daemon as root': refusal(options, *one, *at('d'), user='nobody')}
        for words, said in told.items():
            expect(words in said, f'not "{words}": {said}')
    finally:
        cluster.stop()
    yield f'{len(told)} refusals'


def try_sockets(options):
    """Where a socket's daemon was killed, leddwyfan-run starts nothing, and the next daemon has the socket. Where one answers, no other daemon
    begins, even if somebody has removed the lock beside it."""
    cluster = Cluster(options, 2)
    plain = os.path.join(cluster.folder, 'plain')
    again = None
    try:
        with open(plain, 'w'):
            pass
        told = refusal(options, '--sites', '1', '--socket', plain)
        expect('is no socket' in told and os.path.exists(plain), f'a plain file stays: {told}')
        os.remove(cluster.socket(0) + '.lock')
        told = refusal(options, '--sites', '1', '--socket', cluster.socket(0))
        expect('another daemon answers' in told, f'one daemon at a socket: {told}')
        cluster.told(0, 'ipcs', '-m')
        cluster.daemons[0].kill()
        cluster.daemons[0].wait()
        expect(os.path.exists(cluster.socket(0)), 'the socket is left')
        program = cluster.on(0, 'echo', 'started')
        told, complaint = program.communicate(timeout=within(20))
        expect((program.returncode, told) == (1, ''), f'nothing is started: {program.returncode} {told}')
        expect('no leddwyfan-host answers' in complaint and complaint.count('\n') == 1, f'a sentence: {complaint}')
        again = cluster.start(0, subprocess.DEVNULL, '--', 'sleep', '1000')
        until = time.monotonic() + within(20)
        while cluster.on(0, 'true').wait(within(20)) != 0:
            expect(again.poll() is None and time.monotonic() < until, f'a daemon has the socket that was left: {cluster.complaints()}')
            time.sleep(0.1)
        again.terminate()
        expect(again.wait(within(20)) == 0, 'the daemon ends')
    finally:
        if again is not None:
            again.kill()
        cluster.stop()
    yield 'nothing starts over a socket that was left, which the next daemon has; one that answers is left alone'
