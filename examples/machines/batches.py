"""A journal's batches of lines, each with its mark (docs/lines.md)."""
import hashlib

FIRST = '0' * 64
MARK = b'durable '
ENTRIES = (b'step ', b'journal ')
DIGEST = 65


def front(number, previous):
    """What stands in a mark before its digest."""
    return f'durable {number} {previous}'.encode()


def digest(lines, before):
    return hashlib.sha256(lines + before).hexdigest()


class Chain:
    """How many batches there are, and the digest of the last one."""

    def __init__(self):
        self.number, self.digest = 0, FIRST

    def batch(self, lines):
        """The next batch, which has these lines."""
        before = front(self.number + 1, self.digest)
        self.number, self.digest = self.number + 1, digest(lines, before)
        return lines + before + b' ' + self.digest.encode() + b'\n'


def marked(*batches):
    """The file of these batches of lines."""
    chain = Chain()
    return b''.join(chain.batch(lines) for lines in batches)


def sections(data):
    """Lines, a line behind them that begins as a mark, and where that ends. What stands behind the last such line isn't given."""
    begin = at = 0
    while (end := data.find(b'\n', at) + 1) > 0:
        if data.startswith(MARK, at):
            yield data[begin:at], data[at:end - 1], end
            begin = end
        at = end


def whole_batches(data):
    """The chain of a file's whole batches, and where each of them ends."""
    chain, ends = Chain(), []
    for lines, mark, end in sections(data):
        before = front(chain.number + 1, chain.digest)
        if mark != before + b' ' + digest(lines, before).encode():
            break
        chain.number, chain.digest = chain.number + 1, mark[1 - DIGEST:].decode()
        ends.append(end)
    return chain, ends


def entries(lines):
    """The lines at the end of these that a journal may have."""
    found = b''
    for line in lines.split(b'\n')[:-1]:
        found = found + line + b'\n' if line.startswith(ENTRIES) else b''
    return found


def is_damaged(data):
    """Whether a mark behind the whole batches is whole by itself: with the entries directly before it."""
    _, ends = whole_batches(data)
    return any(mark[-DIGEST:] == b' ' + digest(entries(lines), mark[:-DIGEST]).encode()
               for lines, mark, _ in sections(data[ends[-1] if ends else 0:]))
