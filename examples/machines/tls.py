#!/usr/bin/env python3
"""A cluster over an MQTT broker with TLS, on this machine's loopback. The broker is killed by signal 9 and
started again; what carries the lines ends with it, and comes back by itself.

    tls.py [PROGRAM]      without PROGRAM: crates/shmdbg/out/shmdbg

Types what README.md shows, in a shell, and compares what is printed. The status is 1 where something else is. Needs openssl and the Debian
packages mosquitto and mosquitto-clients."""
import sys

from backup import play

SHELL = '''
PATH=$PATH:/usr/sbin
openssl req -x509 -newkey rsa:2048 -nodes -days 365 -subj /CN=sites -keyout ca.key -out ca.crt
openssl req -newkey rsa:2048 -nodes -subj /CN=localhost -keyout broker.key -out broker.csr
openssl x509 -req -in broker.csr -CA ca.crt -CAkey ca.key -CAcreateserial -days 365 -out broker.crt
chmod 755 .; chmod 644 broker.key
port=$(shuf -i 20000-30000 -n 1)
printf '%s\\n' "listener $port 127.0.0.1" "certfile $PWD/broker.crt" "keyfile $PWD/broker.key" 'allow_anonymous true' > broker.conf
broker() { mosquitto -c broker.conf & broker=$!; }
hear() { mosquitto_sub -h localhost -p $port --cafile ca.crt -t cluster "$@"; }
say() { mosquitto_pub -h localhost -p $port --cafile ca.crt -t cluster -l; }
site() {
    "$PROGRAM" site --sites 3 --me $1 --preset 1 --new --journal site-$1.journal < /dev/null > /dev/null
    while sleep 1; do hear | "$PROGRAM" site --sites 3 --me $1 --preset 1 --journal site-$1.journal | say; done
}
ask() {  # ask SITE TAG ..: again and again, until there is an answer
    until hear -W 4 | grep -m 1 "^tell $1 $2 "; do :; done & hearing=$!
    while kill -0 $hearing; do sleep 1; echo "ask $*" | say; done
}

broker; sleep 1
for k in 0 1 2; do site $k & done
while sleep 0.5; do for k in 0 1 2; do echo "ask $k tick tick"; done | say; done &
ask 1 a store 0 5 7
ask 2 b load 0 5
kill -9 $broker; wait $broker; sleep 2; broker
ask 0 c load 0 5
ask 0 d store 0 5 9
ask 1 e load 0 5
trap '' TERM; kill 0; sleep 1
"$PROGRAM" audit --sites 3 site-0.journal site-1.journal site-2.journal | head -n 1
'''
PRINTED = ['tell 1 a stored', 'tell 2 b byte 7', 'tell 0 c byte 7', 'tell 0 d stored', 'tell 1 e byte 9', 'audit yes']

if __name__ == '__main__':
    play('TLS', SHELL, PRINTED, sys.argv[1] if len(sys.argv) > 1 else None)
