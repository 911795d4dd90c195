#!/usr/bin/env python3
"""Sites as processes that are killed, and a network between them that loses, repeats and reorders what they send.

    crashes.py [--program PROGRAM] [--sites N] [--seconds T] [--seed K] [--kills R] [--no-journal]

Makes rounds of some 20 seconds until the time is over. In each, N sites (0: 2 to 5 in turn) are processes `PROGRAM site .. --journal FILE`,
and R times a second one of them is killed by signal 9. Half of the times something is left behind the last whole batch of its journal, as a
machine that crashed may leave there what was never durable: a front of a batch, a batch with a hole, zeros, garbage, or old blocks. A moment
later the site is started again from its journal. Now and then its journal is made shorter before (`PROGRAM shorten FILE`), and half of the
times that is killed too. Most sites make it shorter while they run, too, at a few thousand bytes. What a killed process had written and nobody had read yet is lost half of the times.
Envelopes are lost, repeated and reordered, and some asks and answers are lost.

Each site has callers, which load bytes that all share and store there; no value is stored twice at a byte. Now and then they read a block, of
which each byte counts as a load between the block's ask and its answer. At the end of a round each byte's history needs one order of its
stores and loads, in which a load gives what was stored last, and which respects time (histories.py); and `PROGRAM audit` has to say yes to
the journals. The status is 1 where one of these fails, or a site ended by itself.

Without journals sites forget what they held and promised, and this finds it."""
import argparse
import base64
import glob
import os
import random
import selectors
import shutil
import signal
import subprocess
import sys
import tempfile
import time
from dataclasses import dataclass

from batches import is_damaged, whole_batches
from histories import Access, loads_of, violations
from router import PAGE_BYTES, PAGES, TICK_SECONDS, Site

ROUND_SECONDS = 20
CALLERS = 2
PLACES = 6
BLOCKS = 0.1
LONGEST_BLOCK = 64
STORES = 0.4
DOWN_SECONDS = 0.2
GIVE_UP_SECONDS = 1
AGAIN_SECONDS = 0.02
END_SECONDS = 20
SHORTENINGS = 0.3
SHORTEN_SECONDS = 0.02
SHORTEN_AT = (0, 3000, 10000, 30000)
MOST_BEHIND = 20000
TORN = ('front', 'hole', 'zeros', 'garbage', 'stale')
COUNTS = ('kills', *TORN, 'damaged', 'shortened', 'shortenings killed', 'files kept', 'loads', 'stores', 'blocks', 'lost', 'repeated', 'violations', 'audits')


class Places:
    """The bytes that callers use now. One whose values have all been stored gives way to another."""

    def __init__(self, draw):
        self.draw = draw
        self.opened = 0
        self.values = {}
        for _ in range(PLACES):
            self.open()

    def open(self):
        """One more: on each page in turn, and there near its beginning and near its end."""
        page, number = self.opened % PAGES, self.opened // PAGES
        offset = number // 2 if number % 2 == 0 else PAGE_BYTES - 1 - number // 2
        self.values[page * PAGE_BYTES + offset] = 0
        self.opened += 1

    def choose(self):
        return self.draw.choice(list(self.values))

    def choose_block(self, length):
        """Where a block of so many bytes begins, in which one of these lies."""
        first = self.choose() - self.draw.randrange(length)
        return min(max(first, 0), PAGES * PAGE_BYTES - length)

    def next_value(self, place):
        self.values[place] += 1
        value = self.values[place]
        if value == 255:
            del self.values[place]
            self.open()
        return value


@dataclass
class Block:
    """So many bytes from this place, which are read in one go."""
    place: int
    length: int
    begin: float


class Caller:
    """A caller of one site, with one access or block at a time. One that has no answer for long, or whose site was killed, is left as it is:
    it may have been made, or may still be."""

    def __init__(self, site, number, places, draw):
        self.name, self.site, self.places, self.draw = f'c{site}.{number}', site, places, draw
        self.accesses = []
        self.done = dict(loads=0, stores=0, blocks=0)
        self.asked = 0
        self.begin(time.monotonic())

    def begin(self, now):
        self.tag = None
        self.ask_at = now
        if self.draw.random() < BLOCKS:
            length = self.draw.randrange(1, LONGEST_BLOCK + 1)
            self.access = Block(self.places.choose_block(length), length, now)
            return
        place = self.places.choose()
        stores = self.draw.random() < STORES
        self.access = Access(stores, place, self.places.next_value(place) if stores else None, now)
        self.accesses.append(self.access)

    def words(self):
        """What is asked."""
        if isinstance(self.access, Block):
            return f'read 0 {self.access.place} {self.access.length}'
        return ('store 0 {0.place} {0.value}' if self.access.stores else 'load 0 {0.place}').format(self.access)

    def question(self, now):
        """The line that is to be asked, if one is due."""
        if now > self.access.begin + GIVE_UP_SECONDS:
            self.begin(now)
        if self.tag is not None or now < self.ask_at:
            return None
        self.asked += 1
        self.tag = f'{self.name}.{self.asked}'
        return f'ask {self.site} {self.tag} {self.words()}'.encode()

    def hear(self, tag, words):
        """An answer. What found too many asks waiting wasn't kept, and is asked again."""
        if tag != self.tag:
            return
        now = time.monotonic()
        if words[0] in ('fault', 'waiting'):
            self.tag, self.ask_at = None, now + AGAIN_SECONDS
            return
        if not self.take(words, now):
            sys.exit(f'{self.access} is answered {words}')
        self.begin(now)

    def take(self, words, now):
        """Takes an answer. False: it is none to what was asked."""
        if isinstance(self.access, Block):
            data = base64.b64decode(words[1], validate=True) if words[0] == 'block' else b''
            if len(data) != self.access.length:
                return False
            self.accesses += loads_of(self.access.place, data, self.access.begin, now)
            self.done['blocks'] += 1
            return True
        if words[0] != ('stored' if self.access.stores else 'byte'):
            return False
        if not self.access.stores:
            self.access.value = int(words[1])
        self.access.end = now
        self.done['stores' if self.access.stores else 'loads'] += 1
        return True


def read(journal):
    try:
        with open(journal, 'rb') as file:
            return file.read()
    except FileNotFoundError:
        return b''


def write(journal, data):
    with open(journal, 'wb') as file:
        file.write(data)


def behind(kind, data, draw):
    """What a crash may leave behind a journal's whole batches. No mark in it is whole by itself."""
    chain, ends = whole_batches(data)
    length = draw.randrange(1, draw.choice((200, MOST_BEHIND)))
    if kind == 'zeros':
        return bytes(length)
    if kind == 'garbage':
        return draw.randbytes(length)
    if kind == 'stale':  # from within a batch on, and to within the one behind it
        begins = [0] + ends
        at = draw.randrange(len(ends))
        end = begins[min(at + 2, len(ends))] - 1
        first = draw.randrange(begins[at] + 1, min(end, begins[at + 1]))
        return data[first:draw.randrange(first + 1, end + 1)]
    # the next batch, with lines of an earlier one
    begin, end = draw.choice(list(zip([0] + ends, ends)))
    batch = chain.batch(data[begin:data.rindex(b'durable ', begin, end)])
    if kind == 'front':
        return batch[:draw.randrange(1, len(batch))]
    first = draw.randrange(len(batch))
    last = draw.randrange(first + 1, len(batch) + 1)
    return (batch[:first] + bytes(last - first) + batch[last:])[:draw.randrange(first + 1, len(batch) + 1)]


class Seat:
    """A site's place in a round: its process, while it has one, and its journal."""

    def __init__(self, words, journal):
        self.words, self.journal = words, journal
        self.site = None
        self.start_at = 0

    def start(self):
        self.site = Site(self.start_words())

    def start_words(self):
        """A journal that has no whole batch yet is to be begun."""
        begins = self.journal in self.words and not whole_batches(read(self.journal))[1]
        return self.words + ['--new'] * begins

    def send(self, line):
        """What is said to a site that is down is lost."""
        if self.site is not None:
            self.site.send(line)

    def write(self):
        """That a process has ended by itself is told by the end of what it writes."""
        try:
            if self.site is not None:
                self.site.write()
        except BrokenPipeError:
            self.site.unwritten = b''

    def kill(self):
        """Kills the process, and gives the whole lines that it had written and nobody had read."""
        site, self.site = self.site, None
        site.process.kill()
        site.process.wait()
        lines = []
        while (more := site.read_lines()) is not None:
            lines += more
        site.process.stdin.close()
        site.process.stdout.close()
        return lines

    def tear(self, kind, draw):
        """Leaves something behind the journal's whole batches. False: it has none yet."""
        data = read(self.journal)
        _, ends = whole_batches(data)
        if not ends:
            return False
        left = data[:ends[-1]] + behind(kind, data[:ends[-1]], draw)
        if is_damaged(left):
            sys.exit(f'{kind}: a mark is whole by itself')
        write(self.journal, left)
        return True

    def damage(self, kind, draw):
        """Damages the journal, looks that the site doesn't start, and takes that back. False: it has too few batches."""
        data = read(self.journal)
        _, ends = whole_batches(data)
        if len(ends) < 2:
            return False
        begins = [0] + ends
        if kind == 'old':
            at, whole = draw.randrange(len(ends)), ends[-1]
            batch = data[begins[at]:ends[at]]
            damaged = data[:whole] + draw.choice((batch, bytes(99) + b'\n' + batch, behind('garbage', data, draw) + b'\n' + batch))
        else:  # one bit of a batch that isn't the last; no line feed, as the next batch may then stand behind further entries
            at = draw.randrange(len(ends) - 1)
            whole, place = begins[at], draw.choice([place for place in range(begins[at], ends[at]) if data[place] != 10])
            damaged = data[:place] + bytes([data[place] ^ 1 << draw.randrange(8)]) + data[place + 1:]
        write(self.journal, damaged)
        told = f'damaged behind its first {whole} bytes: a whole batch stands behind a broken one\n'
        journal = [self.words[0], 'journal', self.journal]
        for words, name in ((self.words, 'journal'), (self.words + ['--new'], 'journal'), (journal, self.journal)):
            done = subprocess.run(words, stdin=subprocess.DEVNULL, capture_output=True, check=False)
            if (done.returncode, done.stdout, done.stderr.decode()) != (1, b'', f'shmdbg: {name}: {told}') or read(self.journal) != damaged:
                shutil.copy(self.journal, self.journal + '.damaged')
                sys.exit(f'{kind} at {at} of {len(ends)}: status {done.returncode}, {done.stdout}, {done.stderr}; {self.journal}.damaged')
        write(self.journal, data)
        return True

    def shorten(self, draw):
        """Makes the journal shorter, and tells what came of it; half of the times that process is killed. None: nothing is begun in it."""
        if not whole_batches(read(self.journal))[1]:
            return None
        words = [self.words[0], 'shorten', self.journal]
        process = subprocess.Popen(words, stdin=subprocess.DEVNULL, stdout=subprocess.DEVNULL, stderr=subprocess.PIPE)
        if draw.random() < 0.5:
            time.sleep(draw.uniform(0, SHORTEN_SECONDS))
            process.kill()
        _, errors = process.communicate()
        if process.returncode not in (0, -signal.SIGKILL):
            sys.exit(f'shorten {self.journal}: status {process.returncode}, {errors}')
        return 'shortenings killed' if process.returncode else 'shortened'

    def files(self):
        """The journal, and those from which it goes on."""
        return [self.journal] + glob.glob(glob.escape(self.journal) + '.*')

    def stop(self):
        """Ends the input, passes over what the process still writes, and answers its status."""
        process, self.site = self.site.process, None
        try:
            process.communicate(timeout=END_SECONDS)
        except subprocess.TimeoutExpired:
            process.kill()
            process.communicate()
        return process.returncode


class Round:
    def __init__(self, options, number, sites, folder):
        self.options, self.sites = options, sites
        self.draw = random.Random(f'{options.seed} {number}')
        self.counts = dict.fromkeys(COUNTS, 0)
        self.flight = []
        self.selector = selectors.DefaultSelector()
        self.seats = [self.seat(site, os.path.join(folder, f'{number}-{site}.journal')) for site in range(sites)]
        places = Places(self.draw)
        self.callers = {}
        for site in range(sites):
            for caller in range(CALLERS):
                self.callers[f'c{site}.{caller}'] = Caller(site, caller, places, self.draw)
        for site in range(sites):
            self.start(site)

    def seat(self, site, journal):
        words = [self.options.program, 'site', '--sites', str(self.sites), '--me', str(site), '--preset', str(PAGES)]
        kept = ['--journal', journal, '--shorten-at', str(self.draw.choice(SHORTEN_AT))]
        return Seat(words if self.options.no_journal else words + kept, journal)

    def start(self, site):
        self.seats[site].start()
        self.selector.register(self.seats[site].site.process.stdout, selectors.EVENT_READ, site)

    def happens(self, share, count):
        happens = self.draw.random() < share
        if count is not None:
            self.counts[count] += happens
        return happens

    def take(self, line):
        """A line that a site wrote: an envelope goes on its way, an answer to its caller."""
        words = line.decode().split(' ')
        if words[0] == 'env':
            self.flight.append((int(words[2]), line))
        elif words[2].startswith('c') and not self.happens(self.options.lose / 10, 'lost'):
            self.callers[words[2].rpartition('.')[0]].hear(words[2], words[3:])

    def carry(self):
        """Hands over some of what is on its way, in any order."""
        for _ in range(min(len(self.flight), 8)):
            at = self.draw.randrange(len(self.flight))
            if self.happens(self.options.repeat, 'repeated'):
                to, line = self.flight[at]
            else:
                to, line = self.flight.pop(at)
            if not self.happens(self.options.lose, 'lost'):
                self.seats[to].send(line)

    def ask(self, now):
        for caller in self.callers.values():
            line = caller.question(now) if self.seats[caller.site].site is not None else None
            if line is not None and not self.happens(self.options.lose / 10, 'lost'):
                self.seats[caller.site].send(line)

    def kill(self, now):
        """Kills a site, if one is up. Its callers have no answer any more, but one that it had written."""
        up = [site for site, seat in enumerate(self.seats) if seat.site is not None]
        if not up:
            return
        site = self.draw.choice(up)
        seat = self.seats[site]
        self.selector.unregister(seat.site.process.stdout)
        lines = seat.kill()
        if self.happens(0.5, None):
            for line in lines:
                self.take(line)
        if not self.options.no_journal and self.happens(0.5, None):
            kind = self.draw.choice(TORN)
            self.counts[kind] += seat.tear(kind, self.draw)
        if not self.options.no_journal and self.happens(SHORTENINGS, None) and (done := seat.shorten(self.draw)):
            self.counts[done] += 1
        if self.options.damage is not None:
            self.counts['damaged'] += seat.damage(self.options.damage, self.draw)
        for caller in self.callers.values():
            if caller.site == site:
                caller.begin(now)
        seat.start_at = now + self.draw.uniform(0, DOWN_SECONDS)
        self.counts['kills'] += 1

    def read(self):
        for key, _ in self.selector.select(0 if self.flight else 0.001):
            lines = self.seats[key.data].site.read_lines()
            if lines is None:
                sys.exit(f'site {key.data} has ended, with status {self.seats[key.data].site.process.wait()}')
            for line in lines:
                self.take(line)

    def run(self, seconds):
        end = time.monotonic() + seconds
        next_tick, next_kill = 0, time.monotonic() + self.pause()
        while (now := time.monotonic()) < end:
            for site, seat in enumerate(self.seats):
                if seat.site is None and now >= seat.start_at:
                    self.start(site)
            self.ask(now)
            if now >= next_tick:
                site = self.draw.randrange(self.sites)
                self.seats[site].send(f'ask {site} tick tick'.encode())
                next_tick = now + TICK_SECONDS
            self.carry()
            for seat in self.seats:
                seat.write()
            self.read()
            if now >= next_kill:
                self.kill(now)
                next_kill = now + self.pause()

    def pause(self):
        return self.draw.expovariate(self.options.kills) if self.options.kills > 0 else float('inf')

    def judge(self):
        """Stops the sites, and tells what is wrong."""
        faults = []
        for site, seat in enumerate(self.seats):
            status = seat.stop() if seat.site is not None else 0
            if status != 0:
                faults.append(f'site {site} ended with status {status}')
        for caller in self.callers.values():
            for word, count in caller.done.items():
                self.counts[word] += count
        faults += violations([access for caller in self.callers.values() for access in caller.accesses])
        self.counts['violations'] = len(faults)
        if not self.options.no_journal:
            faults += self.audit()
        return faults

    def audit(self):
        """The audit's text, where it isn't a yes."""
        words = [self.options.program, 'audit', '--sites', str(self.sites)] + [seat.journal for seat in self.seats]
        audit = subprocess.run(words, stdout=subprocess.PIPE, stderr=subprocess.STDOUT, check=False)
        self.counts['files kept'] = sum(len(seat.files()) - 1 for seat in self.seats)
        if audit.returncode == 0 and audit.stdout.startswith(b'audit yes\n'):
            self.counts['audits'] += 1
            for seat in self.seats:
                for file in seat.files():
                    os.remove(file)
            return []
        return [f'audit {audit.returncode}: {audit.stdout.decode().strip()} (the journals are kept)']


def told(counts):
    return ', '.join(f'{word} {counts[word]}' for word in COUNTS)


def run_rounds(options, folder):
    """Makes rounds until the time is over. Answers whether all was well."""
    end = time.monotonic() + options.seconds
    sums = dict.fromkeys(COUNTS, 0)
    number, faults = 0, []
    while (left := end - time.monotonic()) > 1 and not faults:
        sites = options.sites or 2 + number % 4
        number += 1
        one = Round(options, number, sites, folder)
        one.run(min(left, ROUND_SECONDS))
        faults = one.judge()
        print(f'round {number}: sites {sites}, {told(one.counts)}', flush=True)
        sums = {word: sums[word] + one.counts[word] for word in COUNTS}
    for fault in faults[:10]:
        print('wrong:', fault)
    print(f'rounds {number}, {told(sums)}')
    return not faults and all(sums[word] > 0 for word in ('loads', 'stores', 'blocks'))


def main():
    here = os.path.dirname(os.path.abspath(__file__))
    parser = argparse.ArgumentParser()
    parser.add_argument('--program', default=os.path.join(here, '..', '..', 'crates', 'shmdbg', 'out', 'shmdbg'))
    parser.add_argument('--sites', type=int, default=0, choices=(0, 2, 3, 4, 5))
    parser.add_argument('--seconds', type=float, default=60)
    parser.add_argument('--seed', type=int, default=1)
    parser.add_argument('--kills', type=float, default=2)
    parser.add_argument('--lose', type=float, default=0.1)
    parser.add_argument('--repeat', type=float, default=0.1)
    parser.add_argument('--no-journal', action='store_true')
    parser.add_argument('--damage', choices=('old', 'flip'), help=argparse.SUPPRESS)
    options = parser.parse_args()
    folder = tempfile.mkdtemp(prefix='crashes-')
    well = run_rounds(options, folder)
    if not os.listdir(folder) or options.no_journal:
        os.rmdir(folder)
    else:
        print(f'journals: {folder}')
    sys.exit(0 if well else 1)


if __name__ == '__main__':
    main()
