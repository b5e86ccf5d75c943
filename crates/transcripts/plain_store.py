#!/usr/bin/env python3
"""A second plain store, with whole copies: reads a session and writes its transcript.

    python3 plain_store.py < session > transcript
    python3 plain_store.py --tests

It is the yardstick of the test program and shares nothing with the store under test: no written bits, no tags, no history
of rollbacks, no pool and no circle. Each mark copies the whole memory, so taking back is forgetting the copy.
"""

import io
import re
import sys

FIELDS = {b"reset": 3, b"read": 2, b"write": 3, b"mark": 0, b"back": 1, b"advance": 1, b"counts": 0}
NUMBER = re.compile(rb"[0-9]{1,10}")
LARGEST = 4294967295
LONGEST_LINE = 80
LENT_LINES, LENT_PAGES = 512, 256
TALLY_LIMIT = 2**64 - 1


class Refused(Exception):
    """A line or call turned down; the argument is the number of the reason."""


class Cache:
    """Which lines the cache holds: 16 sets of two ways. It is write-through, so it needs no bytes of its own here."""

    def __init__(self):
        self.sets = [[None, None] for _ in range(16)]
        self.last = [0] * 16  # the way of each set that was used last

    def use(self, line):
        """A read or a write of the line; tells whether it was a hit."""
        number = line % 16
        ways = self.sets[number]
        hit = line in ways
        if hit:
            way = ways.index(line)
        elif None in ways:
            way = ways.index(None)  # way 0 first, even if an invalid way was used last
        else:
            way = 1 - self.last[number]
        ways[way] = line
        self.last[number] = way
        return hit

    def forget(self, lines):
        """Makes the entries of these lines invalid. The order of use stays."""
        for ways in self.sets:
            for way in 0, 1:
                if ways[way] in lines:
                    ways[way] = None


class Frame:
    """One group of the surviving history: the whole memory after its writes, and the lines these lie in."""

    def __init__(self, memory):
        self.memory = bytearray(memory)
        self.lines = set()

    def blocks(self):
        """The blocks of 8 lines that need a page."""
        return {line // 8 for line in self.lines}


class Store:
    """The live frames, oldest first. The base's bytes stand in every frame's copy and are not kept apart; which of its lines were ever written is."""

    def __init__(self, lines, frames, pages):
        if not (8 <= lines <= 4096 and lines % 8 == 0 and 16 <= frames <= 256 and frames % 16 == 0 and 1 <= pages <= 4096):
            raise Refused(4)
        if lines > LENT_LINES or pages > LENT_PAGES:
            raise Refused(6)
        self.bytes, self.most_frames, self.most_pages = 16 * lines, frames, pages
        self.frames = [Frame(bytes(self.bytes))]
        self.collected = set()  # the lines that the base has a write of
        self.cache = Cache()

    def line_at(self, width, address):
        """The line of a place that a read or a write may name."""
        if width not in (1, 2, 4):
            raise Refused(7)
        if address % width != 0:
            raise Refused(8)
        if address + width > self.bytes:
            raise Refused(9)
        return address // 16

    def pages(self):
        """The pages needed: one for each frame and block of 8 lines with a write."""
        return sum(len(frame.blocks()) for frame in self.frames)

    def origin(self, line):
        """How many marks back the line was last written, or a for the archive, or e where no surviving write has touched it."""
        for back, frame in enumerate(reversed(self.frames)):
            if line in frame.lines:
                return back
        return "a" if line in self.collected else "e"

    def read(self, width, address):
        line = self.line_at(width, address)
        value = int.from_bytes(self.frames[-1].memory[address : address + width], "big")
        origin = self.origin(line)
        hit = self.cache.use(line)  # an empty line is loaded and used as any other
        return value, "c" if hit and origin != "e" else origin

    def write(self, width, address, value):
        line = self.line_at(width, address)
        if value >= 256**width:
            raise Refused(10)
        current = self.frames[-1]
        # A line already written needs no look at the pages: its page is needed already.
        if line not in current.lines and line // 8 not in current.blocks() and self.pages() >= self.most_pages:
            raise Refused(13)
        current.memory[address : address + width] = value.to_bytes(width, "big")
        current.lines.add(line)
        self.cache.use(line)
        return ()

    def mark(self):
        if len(self.frames) == self.most_frames:
            raise Refused(12)
        self.frames.append(Frame(self.frames[-1].memory))
        return ()

    def check_marks(self, k):
        if k == 0 or k > len(self.frames) - 1:
            raise Refused(11)

    def back(self, k):
        self.check_marks(k)
        for frame in self.frames[-k:]:
            self.cache.forget(frame.lines)  # their most recent version lay in a dropped frame
        del self.frames[-k:]
        return ()

    def advance(self, k):
        self.check_marks(k)
        for frame in self.frames[:k]:
            self.collected |= frame.lines
        del self.frames[:k]
        return ()

    def counts(self):
        return len(self.frames), self.pages()


def record(line):
    """The word and the numbers of a session line."""
    if len(line) > LONGEST_LINE:
        raise Refused(1)
    word, *fields = line.split(b"\t")
    if FIELDS.get(word) != len(fields) or not all(map(NUMBER.fullmatch, fields)):
        raise Refused(2)
    numbers = [int(field) for field in fields]
    if any(number > LARGEST for number in numbers):
        raise Refused(2)
    return word.decode(), numbers


def answers(lines):
    """The transcript's lines, one by one, from the session's lines (with or without their line feeds)."""
    store = None
    oks = noes = 0
    for line in lines:
        line = line.removesuffix(b"\n")
        if not line:
            continue
        try:
            word, numbers = record(line)
            if word == "reset":
                store = Store(*numbers)  # a refused reset leaves the old store, or none
                values = ()
            elif store is None:
                raise Refused(3)
            else:
                values = getattr(store, word)(*numbers)
        except Refused as reason:
            noes = min(noes + 1, TALLY_LIMIT)
            yield b"no\t%d\n" % reason.args
        else:
            oks = min(oks + 1, TALLY_LIMIT)
            yield "\t".join(["ok", *map(str, values)]).encode() + b"\n"
    yield b"end\t%d\t%d\n" % (oks, noes)


def transcript(session):
    """The whole transcript of a whole session, both as bytes."""
    return b"".join(answers(io.BytesIO(session)))  # a BytesIO's lines end at byte 10 and nowhere else


# Document 01's whole session, with `e` as request 2.3 has it, its cases at the edges, and request 2.3's, in document 01's notation: a space is a tab, a
# slash parts lines.
TESTS = [
    (
        "reset 8 16 2 / write 4 0 305419896 / mark / write 1 1 255 / read 4 0 / mark / write 1 2 1 / back 2 / read 4 0"
        " / read 1 16 / back 1 / read 2 1 / counts",
        "ok / ok / ok / ok / ok 318723704 c / ok / no 13 / ok / ok 305419896 0 / ok 0 e / no 11 / no 8 / ok 1 1 / end 10 3",
    ),
    ("", "end 0 0"),
    ("reset 8 16 1 / reset 7 16 1 / reset 12 16 1 / reset 4104 16 1", "ok / no 4 / no 4 / no 4 / end 1 3"),
    ("reset 512 16 1 / reset 520 16 1 / reset 4096 16 1", "ok / no 6 / no 6 / end 1 2"),
    ("reset 8 16 1 / reset 8 256 1 / reset 8 17 1 / reset 8 272 1", "ok / ok / no 4 / no 4 / end 2 2"),
    ("reset 8 16 1 / reset 8 16 0 / reset 8 16 4097 / reset 8 16 4096", "ok / no 4 / no 4 / no 6 / end 1 3"),
    ("reset 8 16 1 / read 4 124 / read 4 128 / read 2 127 / read 3 1", "ok / ok 0 e / no 9 / no 8 / no 7 / end 2 3"),
    ("reset 8 16 1 / write 1 0 255 / write 1 0 256 / write 1 128 256", "ok / ok / no 10 / no 9 / end 2 2"),
    ("reset 8 16 1" + " / mark" * 16 + " / advance 1 / mark", "ok" + " / ok" * 15 + " / no 12 / ok / ok / end 18 1"),
    ("reset 8 16 1 / mark / mark / mark / back 4 / back 0 / back 3", "ok / ok / ok / ok / no 11 / no 11 / ok / end 5 2"),
    (
        "reset 8 16 1 / write 1 0 7 / mark / mark / advance 2 / read 1 0 / counts",
        "ok / ok / ok / ok / ok / ok 7 c / ok 1 0 / end 7 0",
    ),
    (
        "reset 8 16 9 / write 1 0 5 / mark / write 1 0 6 / mark / back 2 / read 1 0",
        "ok / ok / ok / ok / ok / ok / ok 5 0 / end 7 0",
    ),
    (
        "reset 8 16 9 / write 1 0 5 / mark / back 1 / write 1 0 6 / mark / back 1 / read 1 0",
        "ok / ok / ok / ok / ok / ok / ok / ok 6 c / end 8 0",
    ),
    (
        "reset 40 16 2 / mark / write 1 0 5 / back 1 / read 1 0 / write 1 0 7 / mark / advance 1 / read 1 256 / read 1 512 / read 1 0 / mark"
        " / write 1 0 8 / back 1 / read 1 0",
        "ok / ok / ok / ok / ok 0 e / ok / ok / ok / ok 0 e / ok 0 e / ok 7 a / ok / ok / ok / ok 7 a / end 15 0",
    ),
    (
        "reset 40 16 2 / read 1 0 / read 1 0 / write 1 256 1 / write 1 512 2 / read 1 0 / read 1 512 / read 1 256",
        "ok / ok 0 e / ok 0 e / ok / ok / ok 0 e / ok 2 c / ok 1 0 / end 8 0",
    ),
    ("reset 8 16 2 / write 1 0 0 / read 1 1 / mark / advance 1 / read 1 0 / reset 8 16 2 / read 1 0", "ok / ok / ok 0 c / ok / ok / ok 0 c / ok / ok 0 e / end 8 0"),
]


def run_tests():
    failed = 0
    for session, expected in TESTS:
        given, wanted = (text.replace(" / ", "\n").replace(" ", "\t").encode() for text in (session, expected))
        if transcript(given) != wanted + b"\n":
            failed += 1
            print(f"FAILED: {session}\n  wanted {expected}\n  got    {transcript(given)}")
    print(f"{len(TESTS) - failed} passed, {failed} failed")
    return failed != 0


if __name__ == "__main__":
    if sys.argv[1:] == ["--tests"]:
        sys.exit(run_tests())
    if sys.argv[1:]:
        sys.exit("usage: plain_store.py [--tests] < session > transcript")
    for answer in answers(sys.stdin.buffer):
        sys.stdout.buffer.write(answer)
