#!/usr/bin/env python3
"""A backup of a cluster: stop, copy, audit; and restore all together.

    backup.py [PROGRAM]      without PROGRAM: crates/shmdbg/out/shmdbg

Types what docs/machines.md shows, in a shell, and compares what is printed. Then it restores the journal of one site alone, which nobody
should: the audit has to find that, and to name the site. The status is 1 where something else is printed."""
import os
import signal
import subprocess
import sys
import tempfile

SHELL = '''
start() {  # start STREAM [--new]: three sites over this file, which is new
    stream=$1; shift; : > "$stream"; pids=
    for k in 0 1 2; do
        tail -f -n +1 "$stream" > "in-$k" & pids="$pids $!"
        "$PROGRAM" site --sites 3 --me $k --preset 1 "$@" --journal site-$k.journal < "in-$k" >> "$stream" & sites="$sites $!"
    done
}
ask() {  # ask SITE TAG ..: asks, ticks, and waits for the answer
    echo "ask $*" >> "$stream"
    for i in $(seq 600); do
        grep "^tell $1 $2 " "$stream" && return
        for k in 0 1 2; do echo "ask $k tick tick"; done >> "$stream"; sleep 0.1
    done
    echo "no answer to ask $*"
}
stop() { kill $pids; wait $sites; sites=; }

mkfifo in-0 in-1 in-2; sites=
start first --new; ask 1 a store 0 5 7; ask 2 b load 0 5; stop
mkdir backup; cp -p site-?.journal backup
"$PROGRAM" audit --sites 3 backup/site-0.journal backup/site-1.journal backup/site-2.journal | head -n 1
start second; ask 0 c store 0 5 9; ask 2 d load 0 5; stop
mkdir lost; mv site-?.journal lost
cp -p backup/site-?.journal .
start third; ask 0 e load 0 5; stop
echo one alone; cp -p lost/site-?.journal .; cp -p backup/site-0.journal .
"$PROGRAM" audit --sites 3 site-0.journal site-1.journal site-2.journal 2>&1 | cut -d ' ' -f 1-3
'''
PRINTED = ['tell 1 a stored', 'tell 2 b byte 7', 'audit yes', 'tell 0 c stored', 'tell 2 d byte 9', 'tell 0 e byte 7', 'one alone', 'shmdbg: audit no:', 'shmdbg: site 0']


def play(name, shell, expected, argument):
    """Lets a shell do this with the program, in a folder of its own, and compares what it prints."""
    here = os.path.dirname(os.path.abspath(__file__))
    program = os.path.abspath(argument or os.path.join(here, '..', '..', 'crates', 'shmdbg', 'out', 'shmdbg'))
    with tempfile.TemporaryDirectory(prefix=f'{name}-') as folder:
        begun = subprocess.Popen(['bash', '-c', shell], cwd=folder, env={**os.environ, 'PROGRAM': program}, stdout=subprocess.PIPE,
                                 stderr=subprocess.PIPE, start_new_session=True)
        try:
            out, errors = begun.communicate(timeout=300)
        except subprocess.TimeoutExpired:
            os.killpg(begun.pid, signal.SIGKILL)
            sys.exit(f'{name}: does not end')
    printed = out.decode().splitlines()
    if printed != expected:
        sys.exit(f'{name}: printed {printed}, and {errors.decode()}')
    print(f'{name}: ' + ', '.join(printed))


if __name__ == '__main__':
    play('backup', SHELL, PRINTED, sys.argv[1] if len(sys.argv) > 1 else None)
