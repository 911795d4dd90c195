#!/usr/bin/env python3
"""shmdbg, as $SHMDBG names it, whose site is killed now and then when it is durable that it gave a page away to another site, mapped one for its
machine or took one back from it, and before anybody is told."""
import os
import random
import re
import signal
import subprocess
import sys

GIVES = re.compile(rb'^(?:env (?:\d+ ){5}page |tell \d+ \S+ (?:un)?mapped\b)', re.M)
SHARE = 0.03

site = subprocess.Popen([os.environ['SHMDBG'], *sys.argv[1:]], stdout=subprocess.PIPE)
draw = random.Random(os.getpid())
while told := os.read(site.stdout.fileno(), 1 << 16):
    if GIVES.search(told) and draw.random() < SHARE:
        site.kill()
        site.wait()
        os.kill(os.getpid(), signal.SIGKILL)
    while told:
        told = told[os.write(1, told):]
sys.exit(site.wait())
