"""System V shared memory over sites that share no memory: a site's process, and its calls.

    from leddwyfan import IPC_CREAT, Site

    with Site.over_broker('shmdbg', sites=3, me=0, pages=1, topic='cluster') as site:
        shmid = site.shm_get(5, 8192, IPC_CREAT | 0o666)
        at = site.shm_at(shmid)
        site.shm_write(at, 100, b'hello')
        site.shm_read(at, 100, 5)

A Site starts the process `shmdbg site` and stands between it and the stream that all sites share (docs/lines.md). What the stream says to
this site goes to the process, and what the process says to others goes to the stream. The calls are those of shmget(2), shmop(2) and
shmctl(2); one that is refused raises OSError with the system's errno. Threads may share a Site. clients/README.md says what is promised.

Needs Python 3.9 and nothing else."""
import base64
import contextlib
import errno
import hmac
import operator
import os
import secrets
import select
import shlex
import subprocess
import threading
import time
from dataclasses import dataclass

IPC_PRIVATE = 0
IPC_CREAT = 0o1000
IPC_EXCL = 0o2000
SHM_RDONLY = 0o10000
IPC_RMID = 0
IPC_SET = 1
IPC_STAT = 2

PAGE_BYTES = 4096
TICK_SECONDS = 0.05
IDLE_TICK_SECONDS = 1.0
STOP_SECONDS = 5
MOST_UNWRITTEN = 1 << 22
LONGEST_LINE = 1 << 16
DIGEST_BYTES = 65  # a blank, and two digits for each of 32 bytes
NO_ATTACHMENT = 64
NUMBERS = 1 << 32  # attachments, segments, keys, users, sizes and offsets are below it
MOST_SITES = 16
SPIN_SECONDS = 0.002

ERRORS = {
    1: errno.EACCES, 2: errno.EEXIST, 3: errno.EIDRM, 4: errno.EINVAL, 5: errno.ENOENT, 6: errno.ENOSPC, 7: errno.EPERM,
    8: errno.EBUSY, 9: errno.EINVAL, 10: errno.EACCES, 11: errno.EFAULT, 12: errno.EMFILE, 13: errno.EOVERFLOW,
}


@dataclass(frozen=True)
class Status:
    """What IPC_STAT tells of a segment. A marked one is destroyed once nobody is attached."""
    key: int
    uid: int
    gid: int
    cuid: int
    cgid: int
    mode: int
    size: int
    attachments: int
    marked: bool


def failure(number):
    """The system's error for an error of docs/lines.md."""
    return OSError(number, os.strerror(number))


def refused(number):
    """The system's error for a refusal of docs/refusals.md."""
    return failure(ERRORS.get(number, errno.EIO))


class Seal:
    """How the lines of a cluster are sealed: not at all, by its name, or by that and the key that lies in a file (docs/lines.md)."""

    def __init__(self, cluster=None, key=None):
        if cluster is None and key is not None:
            raise failure(errno.EINVAL)
        self.tail = b'' if cluster is None else b' @' + os.fsencode(cluster)
        self.key = None if key is None else read_key(key)

    def digest(self, text):
        return b'' if self.key is None else b' ' + hmac.digest(self.key, text, 'sha256').hex().encode()

    def seal(self, line):
        text = line + self.tail
        return text + self.digest(text)

    def open(self, line):
        """The line that was sealed so; None where it wasn't."""
        text = line if self.key is None else line[:max(0, len(line) - DIGEST_BYTES)]
        if not text.endswith(self.tail) or not hmac.compare_digest(line[len(text):], self.digest(text)):
            return None
        return text[:len(text) - len(self.tail)]


def read_key(name):
    """A key is its file's bytes, less a line feed at their end."""
    with open(name, 'rb') as file:
        key = file.read()
    key = key[:-1] if key.endswith(b'\n') else key
    if not key:
        raise failure(errno.EINVAL)
    return key


class Incoming:
    """Lines that come from a file descriptor. Of one that is much too long for any site the front is kept."""

    def __init__(self, descriptor):
        os.set_blocking(descriptor, False)
        self.descriptor = descriptor
        self.unread = b''

    def read_lines(self):
        """The whole lines that have come; None at the end, behind which a torn line counts for nothing. A fault is an end."""
        try:
            data = os.read(self.descriptor, 1 << 16)
        except BlockingIOError:
            return []
        except OSError:
            return None
        if not data:
            return None
        *lines, unread = (self.unread + data).split(b'\n')
        self.unread = unread[:LONGEST_LINE]
        return lines


class Outgoing:
    """Lines on their way to a file descriptor, for which nobody waits."""

    def __init__(self, descriptor):
        os.set_blocking(descriptor, False)
        self.descriptor = descriptor
        self.unwritten = bytearray()

    def push(self, line):
        self.unwritten += line
        self.unwritten += b'\n'

    def push_if_room(self, line):
        """The same of a line that a carrier may lose: where too much is on its way already, this one is lost."""
        if len(self.unwritten) < MOST_UNWRITTEN:
            self.push(line)

    def write(self):
        """Writes what the descriptor takes. False: nobody reads it any more."""
        try:
            while self.unwritten:
                del self.unwritten[:os.write(self.descriptor, self.unwritten)]
        except BlockingIOError:
            pass
        except OSError:
            self.unwritten.clear()
            return False
        return True


class Batch:
    """Asks that one caller made together."""

    def __init__(self, count):
        self.answers = [None] * count
        self.missing = count


@dataclass
class Ask:
    """An ask without an answer. One that begins a segment call must not be said twice; it is doubtful when its site was started again since:
    nobody knows whether it began."""
    line: bytes
    batch: Batch
    place: int
    begins: bool
    doubtful: bool = False


class Site:
    """A site and its process. `timeout` is how many seconds a call waits at most, for each page anew, before it raises ETIMEDOUT; None
    waits for good."""

    @classmethod
    def start(cls, program, sites, me, pages, reader, writer, journal=None, begin=False, cluster=None, key=None, **options):
        """Starts site `me`, which is below `sites`, at most 16. `program` is a command (a string, or a list of words), `reader` and
        `writer` are the stream: file objects or descriptors, which the site sets not to block, keeps, and never closes, and which nobody
        else may use. `begin` begins the journal, which must not have been begun; without it the site goes on from its journal.
        `cluster` is the cluster's name, and `key` the file of its key."""
        if not 0 <= me < sites <= MOST_SITES or begin and journal is None:
            raise failure(errno.EINVAL)
        words = shlex.split(program) if isinstance(program, str) else list(program)
        words += ['site', '--sites', str(sites), '--me', str(me), '--preset', str(pages)]
        if journal is not None:
            words += ['--journal', os.fspath(journal)]
        if cluster is not None:
            words += ['--cluster', cluster]
        if key is not None:
            words += ['--key', os.fspath(key)]
        return cls(words, sites, me, reader, writer, journal, begin, seal=Seal(cluster, key), **options)

    @classmethod
    def over_commands(cls, program, sites, me, pages, hear, say, **options):
        """The same with two commands as the stream: `hear` writes it to its output, `say` reads from its input what goes out."""
        hearing = subprocess.Popen(hear, stdin=subprocess.DEVNULL, stdout=subprocess.PIPE)
        try:
            saying = subprocess.Popen(say, stdin=subprocess.PIPE, stdout=subprocess.DEVNULL)
        except Exception:
            end_carriers((hearing,))
            raise
        carriers = (hearing, saying)
        try:
            return cls.start(program, sites, me, pages, hearing.stdout, saying.stdin, carriers=carriers, **options)
        except Exception:
            end_carriers(carriers)
            raise

    @classmethod
    def over_broker(cls, program, sites, me, pages, topic, broker=(), **options):
        """The same over an MQTT broker. `broker` has mosquitto's options for both ways, as ('-h', 'host', '-p', '8883')."""
        hear = ['mosquitto_sub', *broker, '-t', topic]
        say = ['mosquitto_pub', *broker, '-t', topic, '-l']
        return cls.over_commands(program, sites, me, pages, hear, say, **options)

    def __init__(self, words, sites, me, reader, writer, journal, begin, uid=None, gid=None, timeout=60, restarts=16, carriers=(), seal=None):
        self.sites, self.me, self.timeout = sites, me, timeout
        self.uid = os.getuid() if uid is None else uid
        self.gid = os.getgid() if gid is None else gid
        check_numbers(self.uid, self.gid)
        self._seal = seal or Seal()
        self._words, self._journal, self._begin, self._carriers = words, journal, begin, carriers
        self._restarts = restarts if journal is not None else 0
        # A file object that nobody keeps closes its descriptor.
        self._stream = (reader, writer)
        self._from_stream, self._to_stream = Incoming(descriptor_of(reader)), Outgoing(descriptor_of(writer))
        self._name, self._asked, self._asks = secrets.token_hex(3), 0, {}
        self._owner = os.getpid()
        self._calls = threading.Lock()
        self._locks, self._unlocked = set(), threading.Condition()
        self._changed = threading.Condition()
        self._fault = None
        self._stopping = False
        self._last_tick, self._heard = time.monotonic(), False
        self._last_heard = self._last_tick
        self._wake_reader, self._wake_writer = os.pipe()
        os.set_blocking(self._wake_writer, False)
        self._process = None
        self._thread = threading.Thread(target=self._carry, name=f'site {me}', daemon=True)
        try:
            self._start_process()
            self._thread.start()
        except Exception:
            self._close()
            raise

    # The calls.

    def shm_get(self, key, size, flags=0):
        """The identifier of the segment with this key, as shmget(2). `flags` are IPC_CREAT, IPC_EXCL and nine bits of a mode."""
        check_numbers(key, size)
        letters = ('c' if flags & IPC_CREAT else '') + ('x' if flags & IPC_EXCL else '')
        return int(self._call(f'get {self.uid} {self.gid} {key} {size} {flags & 0o777:03o} {letters or "-"}')[1])

    def shm_at(self, shmid, flags=0):
        """Attaches the segment, and gives the attachment's number, as shmat(2). `flags` is SHM_RDONLY or 0."""
        check_numbers(shmid)
        return int(self._call(f'attach {self.uid} {self.gid} {shmid} {"ro" if flags & SHM_RDONLY else "rw"}')[1])

    def shm_dt(self, at):
        """Detaches, as shmdt(2)."""
        check_numbers(at)
        self._call(f'detach {at}')

    def shm_ctl(self, shmid, command, uid=0, gid=0, mode=0):
        """As shmctl(2): IPC_STAT gives a Status, IPC_SET sets this owner and mode, IPC_RMID removes."""
        check_numbers(shmid, uid, gid)
        named = f'{self.uid} {self.gid} {shmid}'
        if command == IPC_STAT:
            return status_of(self._call(f'stat {named}'))
        if command == IPC_SET:
            self._call(f'set {named} {uid} {gid} {mode & 0o777:03o}')
        elif command == IPC_RMID:
            self._call(f'remove {named}')
        else:
            raise failure(errno.EINVAL)
        return None

    def shm_read(self, at, offset, length):
        """So many bytes from this offset: a load of each, in no promised order. What lies in one page is asked for as one block, and one
        byte as a load: where its page is here a load needs no place among the asks that wait, and a block does."""
        check_places(at, offset, length)
        data = bytearray()
        for places in page_by_page(offset, length):
            first, count = places.start, len(places)
            question = f'load {at} {first}' if count == 1 else f'read {at} {first} {count}'
            data += block_of(self._access(question), count)
        return bytes(data)

    def shm_write(self, at, offset, data):
        """Stores these bytes from this offset, each by a store of its own, in their order. What lies in one page is asked for as one block,
        and one byte as a store: where its page is here a store needs no place among the asks that wait, and a block does."""
        data = bytes(memoryview(data))
        check_places(at, offset, len(data))
        for places in page_by_page(offset, len(data)):
            first, part = places.start, data[places.start - offset:places.stop - offset]
            words = f'store {at} {first} {part[0]}' if len(part) == 1 else f'write {at} {first} {base64.b64encode(part).decode()}'
            self._access(words)

    # A lock over sites. Site K's flag is the byte at the lock's offset + PAGE_BYTES * K, so each lies on a page of its own where the offset is a
    # page's first, and a site alone stores its own (Burns and Lynch 1980; Lamport 1986, "The mutual exclusion problem", the one-bit algorithm).
    # All it takes is that a load gives what was stored last.

    def shm_lock(self, at, offset):
        """Takes the lock whose flags begin at this offset: 4,096 bytes for each site. At most one site has it, and of a site one thread
        (all of one site go by the same attachment). Waits for it; sites with lower numbers go first. Raises ETIMEDOUT behind the site's
        timeout, and has then lowered its flag."""
        self._check_owner()
        deadline = self._deadline()
        self._claim(at, offset, deadline)
        with self._disclaims_on_failure(at, offset):
            self._store_flag(at, offset, 1)
            while self._raised(at, offset, range(self.me)):
                self._store_flag(at, offset, 0)
                self._wait_lowered(at, offset, range(self.me), deadline)
                self._store_flag(at, offset, 1)
            self._wait_lowered(at, offset, range(self.me + 1, self.sites), deadline)

    def shm_trylock(self, at, offset):
        """The same where the lock is free and nobody else wants it. Whether it was taken."""
        self._check_owner()
        others = [site for site in range(self.sites) if site != self.me]
        with self._unlocked:
            if (at, offset) in self._locks:
                return False
            self._locks.add((at, offset))
        with self._disclaims_on_failure(at, offset):
            self._store_flag(at, offset, 1)
            taken = not self._raised(at, offset, others)
        if not taken:
            self.shm_unlock(at, offset)
        return taken

    def shm_unlock(self, at, offset):
        """Gives the lock back. What a program had that ended goes to the next at its site that locks or unlocks."""
        self._store_flag(at, offset, 0)
        self._disclaim(at, offset)

    def _claim(self, at, offset, deadline):
        """Waits until no other thread of this site has the lock or wants it."""
        with self._unlocked:
            while (at, offset) in self._locks:
                self._check(deadline)
                self._unlocked.wait(TICK_SECONDS)
            self._locks.add((at, offset))

    def _disclaim(self, at, offset):
        with self._unlocked:
            self._locks.discard((at, offset))
            self._unlocked.notify_all()

    @contextlib.contextmanager
    def _disclaims_on_failure(self, at, offset):
        """A call that fails lowers the site's flag, where that can be done, and leaves the lock to other threads."""
        try:
            yield
        except OSError:
            with contextlib.suppress(OSError):
                self._store_flag(at, offset, 0)
            self._disclaim(at, offset)
            raise

    def _wait_lowered(self, at, offset, sites, deadline):
        while self._raised(at, offset, sites):
            self._check(deadline)
            time.sleep(SPIN_SECONDS)

    def _raised(self, at, offset, sites):
        """Checks for a raised flag among these sites."""
        return any(self.shm_read(at, offset + PAGE_BYTES * site, 1) != b'\0' for site in sites)

    def _store_flag(self, at, offset, byte):
        self.shm_write(at, offset + PAGE_BYTES * self.me, bytes([byte]))

    # Ending.

    def leave(self, seconds):
        """Serves the other sites until none of them has said anything to this one for so many seconds, and stops. What only this site has
        is then gone for them, but for its journal."""
        self._check_owner()
        quiet_since = time.monotonic()
        while time.monotonic() < quiet_since + seconds and self._fault is None:
            time.sleep(min(TICK_SECONDS, seconds))
            quiet_since = max(quiet_since, self._last_heard)
        self._say_last_line()
        self.stop()

    def _say_last_line(self):
        """Writes a line that all sites pass over. A carrier that waits for a line to find out that nobody reads it any more, as
        `mosquitto_sub` does, ends by it."""
        with self._changed:
            if self._fault is None:
                self._to_stream.push(b'bye %d' % self.me)
                self._to_stream.write()

    def stop(self):
        """Ends the site's process and what carries for it. What the site holds is gone, but for its journal. In a process that was forked
        since the start it does nothing."""
        if os.getpid() != self._owner:
            return
        with self._changed:
            if self._stopping:
                return
            self._stopping = True
            self._fail(errno.ESHUTDOWN)
            self._wake()
        self._thread.join()
        self._close()
        end_carriers(self._carriers)

    def _close(self):
        if self._process is not None:
            end_process(self._process)
        os.close(self._wake_reader)
        os.close(self._wake_writer)

    def __enter__(self):
        return self

    def __exit__(self, *_):
        self.stop()

    # Asks and answers.

    def _access(self, question):
        """Makes an access, or reads or stores a block of one page. What found 64 asks waiting at the site wasn't kept there, and is asked
        again."""
        deadline = self._deadline()
        answer = self._exchange([question], deadline)[0]
        while answer[0] in ('fault', 'waiting'):
            time.sleep(TICK_SECONDS)
            answer = self._exchange([question], deadline)[0]
        if answer[0] == 'refused':
            raise refused(int(answer[1]))
        return answer

    def _call(self, question):
        """Makes a segment call, and gives the words of its reply. A site has one at a time: where another caller's isn't replied to yet, this
        one didn't begin, and is asked again."""
        self._check_owner()
        with self._calls:
            deadline = self._deadline()
            answer = self._exchange([question], deadline, begins=True)[0]
            while answer == ['refused', '8']:
                time.sleep(TICK_SECONDS)
                answer = self._exchange([question], deadline, begins=True)[0]
        if answer[0] == 'unknown':
            raise failure(errno.EIO)
        if answer[0] == 'refused':
            raise refused(int(answer[1]))
        if answer[2] == 'error':
            raise refused(int(answer[3]))
        return answer[2:]

    def _deadline(self):
        return None if self.timeout is None else time.monotonic() + self.timeout

    def _check_owner(self):
        """Fails in a process that was forked since the start: neither the thread that carries nor the site's process is its own."""
        if os.getpid() != self._owner:
            raise failure(errno.ECHILD)

    def _check(self, deadline):
        """Fails where a call of this deadline waits no longer."""
        if self._fault is not None:
            raise failure(self._fault)
        if deadline is not None and time.monotonic() >= deadline:
            raise failure(errno.ETIMEDOUT)

    def _exchange(self, questions, deadline, begins=False):
        """Asks all of these at once, and waits for their answers, in the same order. The site is ticked while they wait."""
        self._check_owner()
        batch = Batch(len(questions))
        with self._changed:
            self._check(deadline)
            tags = [self._ask(question, batch, place, begins) for place, question in enumerate(questions)]
            self._write_to_site()
            try:
                while batch.missing:
                    self._check(deadline)
                    if not self._changed.wait(TICK_SECONDS) and self._fault is None:
                        self._tick_if_due()
            finally:
                for tag in tags:
                    self._asks.pop(tag, None)
        return batch.answers

    def _ask(self, question, batch, place, begins):
        self._asked += 1
        tag = f'{self._name}.{self._asked}'
        line = f'ask {self.me} {tag} {question}'.encode()
        self._asks[tag.encode()] = Ask(line, batch, place, begins)
        self._to_site.push(self._seal.seal(line))
        return tag.encode()

    def _hear(self, tag, words):
        """An answer. True where it was to an ask of this library."""
        if tag == self._probe_tag():
            if words == [b'refused', b'9']:
                self._give_up_doubtful()
            return True
        ask = self._asks.pop(tag, None)
        if ask is None:
            return tag.startswith(self._name.encode() + b'.')
        self._answer(ask, [word.decode() for word in words])
        return True

    def _answer(self, ask, words):
        ask.batch.answers[ask.place] = words
        ask.batch.missing -= 1
        if not ask.batch.missing:
            self._changed.notify_all()

    # A segment call whose site was started again. Where its site has no call outstanding, and gave no answer, nobody knows if it was made.

    def _probe_tag(self):
        return f'{self._name}.probe'.encode()

    def _probe(self):
        """Asks for a detach that no site can make. While a call is outstanding it is refused for that (8), else as there is no such
        attachment (9). Neither changes anything."""
        if any(ask.doubtful for ask in self._asks.values()):
            self._to_site.push(self._seal.seal(b'ask %d %s detach %d' % (self.me, self._probe_tag(), NO_ATTACHMENT)))

    def _give_up_doubtful(self):
        for tag, ask in list(self._asks.items()):
            if ask.doubtful:
                del self._asks[tag]
                self._answer(ask, ['unknown'])

    # The thread that carries. It holds the lock, but while it waits.

    def _carry(self):
        """Carries until the site is stopped or something fails; no call waits any more behind it, whatever it was."""
        try:
            while self._fault is None:
                ready = self._wait()
                with self._changed:
                    if not self._stopping:
                        self._take(ready)
        finally:
            with self._changed:
                self._fail(errno.EIO)

    def _wait(self):
        """The descriptors that can be read, or written where there is something to write. The stream may be one descriptor for both."""
        poll = select.poll()
        with self._changed:
            events = dict.fromkeys((self._from_stream.descriptor, self._from_site.descriptor, self._wake_reader), select.POLLIN)
            for outgoing in (self._to_stream, self._to_site):
                if outgoing.unwritten:
                    events[outgoing.descriptor] = events.get(outgoing.descriptor, 0) | select.POLLOUT
            for descriptor, mask in events.items():
                poll.register(descriptor, mask)
            due = self._last_tick + self._tick_seconds() - time.monotonic()
        return {descriptor for descriptor, _ in poll.poll(max(0, 1000 * due))}

    def _take(self, ready):
        if self._wake_reader in ready:
            os.read(self._wake_reader, 1 << 12)
        if self._from_site.descriptor in ready:
            self._take_from_site()
        if self._from_stream.descriptor in ready:
            self._take_from_stream()
        if self._fault is not None:
            return
        self._tick_if_due()
        if not self._to_stream.write():
            self._fail(errno.EPIPE)
        self._to_site.write()

    def _take_from_stream(self):
        lines = self._from_stream.read_lines()
        if lines is None:
            self._fail(errno.EPIPE)
            return
        me = b'%d' % self.me
        for line in lines:
            words = line.split(b' ', 3)
            if (words[0] == b'env' and words[2:3] == [me]) or (words[0] == b'ask' and words[1:2] == [me]):
                self._to_site.push_if_room(line)
                self._heard, self._last_heard = True, time.monotonic()

    def _take_from_site(self):
        lines = self._from_site.read_lines()
        if lines is None:
            self._start_again()
            return
        me = b'%d' % self.me
        for line in lines:
            words = line.split(b' ', 3)
            if words[0] == b'env' and words[2] == me:
                self._to_site.push_if_room(line)
            elif words[0] != b'tell' or not self._hear(words[2], self._seal.open(line).split(b' ')[3:]):
                self._to_stream.push_if_room(line)

    def _tick_seconds(self):
        """How long there is between two ticks. Others wait for what this site sends, too: it is ticked often while they say something."""
        return TICK_SECONDS if self._asks or self._heard else IDLE_TICK_SECONDS

    def _tick_if_due(self):
        """A tick sends again what was lost."""
        now = time.monotonic()
        if now < self._last_tick + self._tick_seconds():
            return
        self._last_tick, self._heard = now, False
        self._to_site.push(self._seal.seal(b'ask %d %s.tick tick' % (self.me, self._name.encode())))
        self._probe()
        self._write_to_site()

    def _write_to_site(self):
        """Writes what the process takes at once. The rest is left to the thread. That the process has ended is told by the end of what it
        writes."""
        self._to_site.write()
        if self._to_site.unwritten:
            self._wake()

    def _wake(self):
        try:
            os.write(self._wake_writer, b'.')
        except BlockingIOError:
            pass  # the thread hasn't read so many wakes yet

    # The process.

    def _start_process(self):
        self._process = subprocess.Popen(self._words + ['--new'] * self._begin, stdin=subprocess.PIPE, stdout=subprocess.PIPE)
        self._from_site, self._to_site = Incoming(self._process.stdout.fileno()), Outgoing(self._process.stdin.fileno())

    def _start_again(self):
        """The process has ended. If a signal ended it and there is a journal it is started again. It made durable what it answered, and
        forgot the accesses and blocks that waited: these are asked again."""
        ended = self._process
        end_process(ended)
        if ended.returncode >= 0 or self._restarts == 0:
            self._fail(errno.EIO)
            return
        self._restarts -= 1
        self._begin = self._begin and not has_batch(self._journal)
        try:
            self._start_process()
        except OSError:
            self._fail(errno.EIO)
            return
        for ask in self._asks.values():
            if ask.begins:
                ask.doubtful = True
            else:
                self._to_site.push(self._seal.seal(ask.line))
        self._probe()

    def _fail(self, number):
        """All that waits fails with this errno, and all that comes. Nothing is written any more: what was a descriptor of the process may by
        now be another file's."""
        if self._fault is None:
            self._fault = number
        self._changed.notify_all()


def has_batch(journal):
    """A site that was killed before it had written its journal's first batch, a line and its mark, has to begin it once more."""
    try:
        with open(journal, 'rb') as file:
            return file.readline().endswith(b'\n') and file.readline().endswith(b'\n')
    except FileNotFoundError:
        return False


def check_numbers(*numbers):
    """Refuses at once what no line can name."""
    if not all(0 <= operator.index(number) < NUMBERS for number in numbers):
        raise failure(errno.EINVAL)


def check_places(at, offset, length):
    """Refuses at once what no line can ask for: there is no such attachment, or no segment has such offsets."""
    check_numbers(at)
    if length < 0:
        raise failure(errno.EINVAL)
    if not 0 <= offset < NUMBERS or length > NUMBERS - offset:
        raise failure(errno.EFAULT)


def page_by_page(offset, length):
    """The offsets from this one, in ranges of which none crosses into another page."""
    end = offset + length
    while offset < end:
        page_end = min(end, (offset // PAGE_BYTES + 1) * PAGE_BYTES)
        yield range(offset, page_end)
        offset = page_end


def block_of(answer, length):
    """The one byte of `byte N`, or the bytes of `block BASE64`, which are so many. Each has one spelling."""
    try:
        _, text = answer
        data = bytes([int(text)]) if length == 1 else base64.b64decode(text, validate=True)
    except ValueError:
        data = b''
    spelled = ['byte', *map(str, data)] if length == 1 else ['block', base64.b64encode(data).decode()]
    if len(data) != length or answer != spelled:
        raise failure(errno.EIO)
    return data


def status_of(reply):
    """`stat key K uid U gid G cuid C cgid D mode MMM size S nattch A live`, or `marked`."""
    key, uid, gid, cuid, cgid = (int(word) for word in reply[2:11:2])
    return Status(key, uid, gid, cuid, cgid, int(reply[12], 8), int(reply[14]), int(reply[16]), reply[17] == 'marked')


def descriptor_of(stream):
    return stream if isinstance(stream, int) else stream.fileno()


def end_carriers(carriers):
    """The first of them listens for good, until it is told to end."""
    for carrier in carriers:
        if carrier.stdin is None:
            carrier.terminate()
        end_process(carrier)


def end_process(process):
    """Ends a process's input and passes over what it still writes, until it has ended. One that doesn't by itself is terminated, and then
    killed."""
    for end in (None, process.terminate, process.kill):
        if end is not None:
            end()
        try:
            process.communicate(timeout=STOP_SECONDS)
            return
        except subprocess.TimeoutExpired:
            continue
