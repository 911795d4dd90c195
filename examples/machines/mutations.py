#!/usr/bin/env python3
"""Mutated lines against three living sites.

    mutations.py [--program PROGRAM] [--lines L] [--seed K] [--key]

Starts three sites with journals, and carries their lines. Beside these each site is handed L lines that were made of earlier ones: letters are
changed, words left out, doubled and exchanged, lines cut and joined, numbers and clocks put at their ends. A line that a site might have sent,
or that would take segment 0 away, isn't handed over: inventing one is what docs/trust.md forbids. Between them a byte is stored at one site
and loaded at the next. No site may end; their memory stays as it is; in the end the audit has to say yes. The status is 1 where one fails.

With --key all lines are sealed under a key (docs/lines.md), and every mutated line is handed over: none may make a step."""
import argparse
import os
import random
import re
import shlex
import subprocess
import sys
import tempfile
import time

HERE = os.path.dirname(os.path.abspath(__file__))
sys.path[:0] = [HERE, os.path.join(HERE, '..', '..', 'clients', 'python')]
from leddwyfan import Seal  # noqa: E402
from router import Site  # noqa: E402

SITES, PAGES, PLACE, BATCH, SEEN = 3, 2, 6007, 40, 200
ANSWER_SECONDS, MOST_GROWTH = 300, 4 << 20
ENDS = [0, 1, 255, 256, 4095, 4096, 8191, 8192, 2**31, 2**32 - 1, 2**32, 2**32 + 1, 2**63, 2**64 - 2, 2**64 - 1, 2**64, 10**40]
SPELLINGS = [b'-1', b'+1', b'01', b'0x1', b'1e3', b'', b'\xd9\xa1']
SEEDS = [b'ask 1 a load 0 5', b'ask 2 b store 0 5 7', b'ask 0 c read 0 4094 4', b'ask 1 d try-store 0 4096 1', b'ask 2 e stat 0 0 0', b'ask 0 f show 0 1',
         b'ask 1 g tick', b'ask 2 h attach 0 0 0 ro', b'tell 1 a byte 7', b'env 1 0 18446744073709551595 9999 0 confirm 0 0 4294967295',
         b'env 2 0 5 9999 0 ask 0 0 18446744073709551615 write', b'env 0 1 9 9 0 page 0 0 18446744073709551615 write AAAA',
         b'env 0 2 9 9 0 reply 8 id 1', b'env 1 2 9 9 0 purge 0', b'env 2 1 9 9 0 hand 0 1 10 write 0', b'step 1 restart', b'journal 3 0 2']
ENVELOPE = re.compile(rb'env (\d+) (\d+) (\d+) \d+ \d+ (?:(?:ask|clear|cleared|hand|page|confirm) \d+ \d+ (\d+).*|(?:call|reply) (\d+) .*|purged? .*)', re.S)
AWAY = re.compile(rb'ask \d+ \S+ (?:detach|remove|set) .*', re.S)


def is_forbidden(line, clock):
    """Whether a site might have sent the line, by this clock and 2^32 more; or it is an ask after which segment 0 may be away."""
    found = ENVELOPE.fullmatch(line)
    if found is None:
        return AWAY.fullmatch(line) is not None
    return int(found[3]) <= clock + 2**33 and int(found[4] or found[5] or 0) <= int(found[3])


def mutate(line, other, draw):
    """The line, with one thing changed."""
    words = line.split(b' ')
    at, cut, kind = draw.randrange(len(words)), draw.randrange(len(line) + 1), draw.randrange(10)
    if kind < 3:
        numbers = [place for place, word in enumerate(words) if word.isdigit()] or [at]
        words[draw.choice(numbers)] = draw.choice(SPELLINGS) if draw.random() < 0.2 else b'%d' % (draw.choice(ENDS) + draw.randrange(-1, 2))
    elif kind < 5:
        words[at:at + 1] = [] if kind == 3 else [words[at], draw.choice(words)]
    elif kind == 5:
        words[at], words[0] = words[0], words[at]
    elif kind == 6:
        return line[:cut] + other[draw.randrange(len(other) + 1):]
    elif kind == 7:
        return line[:cut] + draw.randbytes(draw.choice([1, 2, 40])) + line[cut:]
    elif kind == 8:
        return line + b'A' * draw.choice([8192, 20000]) if draw.random() < 0.02 else line[:cut]
    else:
        return line[:cut] + draw.randbytes(1) + line[cut + 1:]
    return b' '.join(words)


class Cluster:
    def __init__(self, options, folder, draw):
        self.program, self.draw, self.seal, sealing = shlex.split(options.program), draw, Seal(), []
        if options.key:
            sealing = ['--cluster', 'mutations', '--key', os.path.join(folder, 'key')]
            with open(sealing[3], 'wb') as file:
                file.write(draw.randbytes(32).hex().encode() + b'\n')
            self.seal = Seal(sealing[1], sealing[3])
        self.journals = [os.path.join(folder, f'site-{site}.journal') for site in range(SITES)]
        self.sites = [Site(self.program + ['site', '--sites', str(SITES), '--me', str(site), '--preset', str(PAGES), '--new', '--journal', journal] + sealing)
                      for site, journal in enumerate(self.journals)]
        self.seen, self.told, self.clock, self.asked, self.sent = list(SEEDS), {}, 0, 0, set()

    def send(self, lines):
        for site in self.sites:
            site.send(b'\n'.join(lines))

    def carry(self):
        """Writes what waits, and hands each site what the others said. How many bytes still wait, at most at one site."""
        for number, site in enumerate(self.sites):
            site.write()
            lines = site.read_lines()
            if lines is None:
                sys.exit(f'mutations.py: site {number} has ended')
            for line in lines:
                inner = self.seal.open(line)
                words = inner.split(b' ', 3)
                if len(self.seen) == SEEN:
                    del self.seen[self.draw.randrange(len(SEEDS), SEEN)]
                self.seen.append(line)
                if words[0] == b'env':
                    self.clock = max(self.clock, int(words[3].split()[0]))
                    self.send([line])
                    if self.seal.key is not None:
                        self.sent.add(hash(inner))
                elif words[2].startswith(b'own.'):
                    self.told[words[2]] = words[3]
        return max(len(site.unwritten) for site in self.sites)

    def ask(self, site, words):
        """What the site tells. Asks again where no place was free to wait."""
        end = time.monotonic() + ANSWER_SECONDS
        while time.monotonic() < end:
            self.asked += 1
            tag, again = b'own.%d' % self.asked, time.monotonic() + 2
            asks = [b'ask %d %s %s' % (site, tag, words)] + [b'ask %d tick tick' % each for each in range(SITES)]
            self.send([self.seal.seal(ask) for ask in asks])
            while tag not in self.told and time.monotonic() < again:
                self.carry()
            told = self.told.pop(tag, b'waiting')
            if told not in (b'waiting', b'fault'):
                return told
        return sys.exit(f'mutations.py: site {site} gives no answer to {words}')

    def memory(self):
        """The bytes that each site has in memory."""
        texts = [open(f'/proc/{site.process.pid}/status', encoding='ascii').read() for site in self.sites]
        return [int(re.search(r'VmRSS:\s*(\d+)', text)[1]) << 10 for text in texts]


    def unasked(self):
        """The first step in a journal that no line under the key has made."""
        for journal in self.journals:
            with open(journal, 'rb') as file:
                for entry in [line for line in file if not line.startswith(b'durable ')][1:]:
                    words = entry[:-1].split(b' ', 5)
                    line = entry[:-1].split(b' ', 2)[2]
                    own = words[2] == b'ask' and (words[4].startswith(b'own.') or words[4] == b'tick')
                    if not own and hash(line) not in self.sent:
                        return line
        return None


def run(options, folder):
    draw = random.Random(options.seed)
    cluster, handed, left, before = Cluster(options, folder, draw), 0, 0, None
    while handed < options.lines:
        lines = [mutate(*draw.choices(cluster.seen, k=2), draw).replace(b'\n', b' ') for _ in range(BATCH)]
        fit = [line for line in lines if options.key or not is_forbidden(line, cluster.clock)]
        handed, left = handed + len(fit), left + BATCH - len(fit)
        cluster.send(fit)
        while cluster.carry() > 1 << 16:
            pass
        if handed // 1000 > (handed - len(fit)) // 1000:
            site, value = draw.randrange(SITES), draw.randrange(256)
            told = [cluster.ask(site, b'store 0 %d %d' % (PLACE, value)), cluster.ask((site + 1) % SITES, b'load 0 %d' % PLACE)]
            if told != [b'stored', b'byte %d' % value]:
                sys.exit(f'mutations.py: {value} was stored, and {told} told')
        if before is None and handed > options.lines // 5:
            before = cluster.memory()
    growth = max(now - then for now, then in zip(cluster.memory(), before))
    for site in cluster.sites:
        os.set_blocking(site.process.stdin.fileno(), True)
        site.process.communicate(site.unwritten)
    if options.key and cluster.unasked() is not None:
        sys.exit(f'mutations.py: a line without the key made a step: {cluster.unasked()}')
    done = subprocess.run(cluster.program + ['audit', '--sites', str(SITES), *cluster.journals], stdout=subprocess.PIPE, check=False)
    ended = [site.process.returncode for site in cluster.sites]
    if done.returncode != 0 or any(ended) or growth > MOST_GROWTH:
        sys.exit(f'mutations.py: the audit says {done.stdout}, the sites ended with {ended}, {growth} bytes more')
    print(f'mutations: {handed} lines to each of {SITES} sites, {left} left out; {growth >> 10} KiB more; ' + ', '.join(done.stdout.decode().splitlines()))


if __name__ == '__main__':
    parser = argparse.ArgumentParser()
    parser.add_argument('--program', default=os.path.join(HERE, '..', '..', 'crates', 'shmdbg', 'out', 'shmdbg'))
    parser.add_argument('--lines', type=int, default=20000)
    parser.add_argument('--seed', type=int, default=1)
    parser.add_argument('--key', action='store_true')
    with tempfile.TemporaryDirectory(prefix='mutations-') as temporary:
        run(parser.parse_args(), temporary)
