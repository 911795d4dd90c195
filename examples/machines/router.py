#!/usr/bin/env python3
"""Sites as processes, and a network between them that loses, repeats and reorders what they send.

    router.py [--program PROGRAM] [--sites N] [--seconds T] [--seed K] [--lose P] [--repeat P]

Starts N processes `PROGRAM site --sites N --me K --preset 2`, with two pipes each, and carries their lines (docs/lines.md). Of the
envelopes some are lost, some go out again later, and all of them in any order; some asks and answers are lost. Each site has a caller,
which alone stores to two places of its own, on pages that all share, and loads those of all. Each load has to give what was stored last to
its place: the last store that was answered before the load was asked, or one that was asked since and before the load was answered. The
same holds of each byte of the blocks that are read now and then; where nobody stores it is 0. The last line says how much was done; the
status is 1 where a load or a block gave something else, or where a caller had no answer for a long time.

PROGRAM may be more words than one, and {} in it is the site's number: --program 'ssh host-{} shmdbg'."""
import argparse
import base64
import os
import random
import selectors
import shlex
import subprocess
import sys
import time

PAGES = 2
PAGE_BYTES = 4096
BLOCKS = 0.15
LONGEST_BLOCK = 64
STORES = 0.4
ANSWERS = dict(loads='byte', stores='stored', blocks='block')
TICK_SECONDS = 0.02
ASK_AGAIN_SECONDS = 0.5
GIVE_UP_SECONDS = 30


class Site:
    """A process, and the pipes to and from it. The pipe to it never makes the router wait."""

    def __init__(self, words):
        self.process = subprocess.Popen(words, stdin=subprocess.PIPE, stdout=subprocess.PIPE, bufsize=0)
        self.unread = b''
        self.unwritten = b''
        os.set_blocking(self.process.stdin.fileno(), False)
        os.set_blocking(self.process.stdout.fileno(), False)

    def send(self, line):
        self.unwritten += line + b'\n'

    def write(self):
        if self.unwritten:
            try:
                count = os.write(self.process.stdin.fileno(), self.unwritten)
            except BlockingIOError:
                count = 0
            self.unwritten = self.unwritten[count:]

    def read_lines(self):
        """The lines that have come; None where the process has ended."""
        try:
            data = os.read(self.process.stdout.fileno(), 1 << 16)
        except BlockingIOError:
            return []
        if not data:
            return None
        *lines, self.unread = (self.unread + data).split(b'\n')
        return lines


class Place:
    """A byte that one caller stores to. The values that were asked to be stored stand in their order, the first is the 0 of the beginning."""

    def __init__(self, page, offset):
        self.at = page * PAGE_BYTES + offset
        self.values = [0]
        self.answered = 0


class Caller:
    """A caller of one site, with one ask at a time."""

    def __init__(self, site, own, places, draw):
        self.site, self.own, self.places, self.draw = site, own, places, draw
        self.asked = 0
        self.tags = set()
        self.done = dict(loads=0, stores=0, blocks=0, again=0)
        self.wrong = []
        self.choose()

    def choose(self):
        """What comes next: a store, a load or a block, of so many bytes from `at`."""
        drawn = self.draw.random()
        self.kind = 'blocks' if drawn < BLOCKS else 'stores' if drawn < BLOCKS + STORES else 'loads'
        self.length = self.draw.randrange(1, LONGEST_BLOCK + 1) if self.kind == 'blocks' else 1
        self.place = self.draw.choice(self.own if self.kind == 'stores' else self.places)
        self.at = min(max(self.place.at - self.draw.randrange(self.length), 0), PAGES * PAGE_BYTES - self.length)
        if self.kind == 'stores':
            self.place.values.append(self.draw.randrange(256))
        self.least = {place.at: place.answered for place in self.places}
        self.since = time.monotonic()
        self.tags.clear()
        self.last_asked = None

    def question(self, now):
        """The next line to be asked, if one is due. One without an answer is asked again, under a new tag."""
        if self.last_asked is not None and now < self.last_asked + ASK_AGAIN_SECONDS:
            return None
        self.done['again'] += self.last_asked is not None
        self.last_asked = now
        self.asked += 1
        tag = f'c{self.site}.{self.asked}'
        self.tags.add(tag)
        words = {
            'stores': f'store 0 {self.at} {self.place.values[-1]}',
            'loads': f'load 0 {self.at}',
            'blocks': f'read 0 {self.at} {self.length}',
        }
        return f'ask {self.site} {tag} {words[self.kind]}'.encode()

    def hear(self, tag, words):
        """An answer. One under a tag of an earlier ask is passed over."""
        if tag not in self.tags:
            return
        if words[0] != ANSWERS[self.kind]:
            self.wrong.append((self.site, self.at, words))
        elif self.kind == 'stores':
            self.place.answered = len(self.place.values) - 1
        else:
            self.judge(bytes([int(words[1])]) if self.kind == 'loads' else base64.b64decode(words[1], validate=True))
        self.done[self.kind] += 1
        self.choose()

    def judge(self, data):
        """Looks at each byte that was loaded from `at` on."""
        if len(data) != self.length:
            self.wrong.append((self.site, self.at, f'{len(data)} bytes in place of {self.length}'))
        values = {place.at: place.values[self.least[place.at]:] for place in self.places}
        for at, value in enumerate(data, self.at):
            if value not in values.get(at, [0]):
                self.wrong.append((self.site, at, value, values.get(at, [0])))


class Router:
    def __init__(self, options):
        self.options = options
        self.draw = random.Random(options.seed)
        self.flight = []
        self.counts = dict(carried=0, lost=0, repeated=0, ticks=0)
        self.sites = [Site(self.words(site)) for site in range(options.sites)]
        own = [[Place(page, 8 * site) for page in range(PAGES)] for site in range(options.sites)]
        places = [place for of_site in own for place in of_site]
        self.callers = [Caller(site, own[site], places, self.draw) for site in range(options.sites)]
        self.selector = selectors.DefaultSelector()
        for number, site in enumerate(self.sites):
            self.selector.register(site.process.stdout, selectors.EVENT_READ, number)

    def words(self, site):
        program = [word.replace('{}', str(site)) for word in shlex.split(self.options.program)]
        return program + ['site', '--sites', str(self.options.sites), '--me', str(site), '--preset', str(PAGES)]

    def loses(self):
        lost = self.draw.random() < self.options.lose
        self.counts['lost'] += lost
        return lost

    def take(self, line):
        """A line that a site wrote: an envelope goes on its way, an answer to its caller."""
        words = line.decode().split(' ')
        if words[0] == 'env':
            self.flight.append((int(words[2]), line))
        elif words[0] == 'tell' and words[2].startswith('c') and not self.loses():
            self.callers[int(words[1])].hear(words[2], words[3:])

    def carry(self):
        """Hands over some of what is on its way, in any order."""
        for _ in range(min(len(self.flight), 8)):
            at = self.draw.randrange(len(self.flight))
            if self.draw.random() < self.options.repeat:
                self.counts['repeated'] += 1
                to, line = self.flight[at]
            else:
                to, line = self.flight.pop(at)
            if not self.loses():
                self.sites[to].send(line)
                self.counts['carried'] += 1

    def ask(self, now):
        for caller in self.callers:
            line = caller.question(now)
            if line is not None and not self.loses():
                self.sites[caller.site].send(line)
            if now > caller.since + GIVE_UP_SECONDS:
                caller.wrong.append((caller.site, caller.at, 'no answer'))

    def tick(self, site):
        self.sites[site].send(f'ask {site} tick tick'.encode())
        self.counts['ticks'] += 1

    def run(self):
        end = time.monotonic() + self.options.seconds
        next_tick = 0
        while (now := time.monotonic()) < end and not self.wrong():
            self.ask(now)
            if now >= next_tick:
                self.tick(self.draw.randrange(len(self.sites)))
                next_tick = now + TICK_SECONDS
            self.carry()
            for site in self.sites:
                site.write()
            for key, _ in self.selector.select(0 if self.flight else 0.001):
                lines = self.sites[key.data].read_lines()
                if lines is None:
                    sys.exit(f'site {key.data} has ended')
                for line in lines:
                    self.take(line)

    def wrong(self):
        return [wrong for caller in self.callers for wrong in caller.wrong]

    def stop(self):
        for site in self.sites:
            site.process.stdin.close()
            site.process.wait()


def main():
    here = os.path.dirname(os.path.abspath(__file__))
    parser = argparse.ArgumentParser()
    parser.add_argument('--program', default=os.path.join(here, '..', '..', 'crates', 'shmdbg', 'out', 'shmdbg'))
    parser.add_argument('--sites', type=int, default=3)
    parser.add_argument('--seconds', type=float, default=5)
    parser.add_argument('--seed', type=int, default=1)
    parser.add_argument('--lose', type=float, default=0.1)
    parser.add_argument('--repeat', type=float, default=0.1)
    router = Router(parser.parse_args())
    router.run()
    router.stop()
    for wrong in router.wrong():
        print('wrong:', *wrong)
    done = {word: sum(caller.done[word] for caller in router.callers) for word in ('loads', 'stores', 'blocks', 'again')}
    print(', '.join(f'{word} {count}' for word, count in {**done, **router.counts}.items()))
    sys.exit(1 if router.wrong() or not done['loads'] or not done['stores'] else 0)


if __name__ == '__main__':
    main()
