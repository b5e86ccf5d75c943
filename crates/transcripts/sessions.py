#!/usr/bin/env python3
"""The test sessions. Each is a list of pieces (bytes, repeat); all pieces together, each repeated, form the input.

    python3 sessions.py          a table: name, pieces, bytes and lines of input
    python3 sessions.py NAME     the session's bytes
    python3 sessions.py --rattle the test program's src/sessions.rt, before `rt fmt`

A piece that is repeated is the same bytes every time, so that a test program can feed it in a loop.
"""

import sys


def text(records):
    """Records in document 01's notation: a space is a tab, a slash parts lines; the last line too gets its line feed."""
    return records.replace(" / ", "\n").replace(" ", "\t").encode() + b"\n"


def empty():
    return []


def refusals():
    """Every refusal but 5, each with near misses, in the order of the numbers."""
    before_reset = text(
        "mark / counts / read 3 1 / back 0 / write 1 0 256"  # 3 comes before the call's own
        " / reset 7 16 1 / reset 12 16 1 / reset 0 16 1 / reset 4104 16 1 / reset 8 17 1 / reset 8 0 1 / reset 8 272 1"
        " / reset 8 16 0 / reset 8 16 4097 / reset 520 17 1 / reset 8 16 4294967295"
        " / reset 520 16 1 / reset 4096 256 1 / reset 8 16 257 / reset 512 256 4096 / mark"
    )
    places = text(
        "reset 512 256 256 / read 4 8188 / read 4 8192 / read 1 8191 / read 1 8192 / reset 4096 16 1 / read 1 8191 / counts"
        " / reset 8 16 2 / read 3 1 / read 0 0 / read 8 0 / read 4294967295 1 / write 3 129 4294967295 / write 0 0 0"
        " / read 2 127 / read 4 126 / read 4 130 / write 2 129 65536 / read 1 127 / read 2 126 / read 4 124"
        " / read 4 128 / read 2 128 / read 1 128 / read 1 4294967295 / read 2 4294967294 / read 4 4294967292"
        " / write 1 128 256 / write 4 4294967292 0"
        " / write 1 0 256 / write 1 0 255 / write 2 0 65536 / write 2 0 65535 / write 1 0 4294967295 / write 4 0 4294967295"
        " / read 4 0 / write 4 124 16909060 / read 1 127 / read 2 126 / read 4 124 / counts"
    )
    marks = text(
        "back 0 / back 1 / advance 0 / advance 1 / mark / mark / mark / back 4 / advance 4 / back 4294967295 / back 0"
        " / advance 0 / back 3 / back 1 / mark / mark / advance 3 / advance 2 / advance 1 / counts"
    )
    frames = text(
        "reset 8 16 1"), text("mark"), text("counts / advance 1 / mark / mark / back 15 / mark / advance 1 / counts"
    )
    pages = text(
        "reset 16 16 1 / write 1 0 1 / write 1 127 1 / write 1 128 1 / read 1 128 / mark / write 1 0 2 / write 1 0 256"
        " / write 1 256 256 / write 1 1 0 / read 1 0 / back 1 / write 1 0 2 / write 1 128 1 / mark / advance 1"
        " / write 1 128 1"
        " / write 1 0 3 / read 1 0 / read 1 128 / counts"
    )
    return [
        (b"m" * 80 + b"\n", 1),
        (b"m" * 81 + b"\n", 1),
        (before_reset, 1),
        (places, 1),
        (marks, 1),
        (frames[0], 1),
        (frames[1], 16),
        (frames[2], 1),
        (pages, 1),
    ]


def lines():
    """What a line may be, before the first accepted reset, between two of them and after."""
    numbers = text(
        "write 4 0 4294967295 / write 4 0 4294967296 / write 4 0 9999999999 / write 4 0 04294967295 / write 4 0 10000000000"
        " / write 0000000004 0000000000 0000000007 / write 00000000004 0 7 / read 0000000004 0 / read 4 00"
        " / read 4 00000000000"
        " / read 4 4294967296 / read 4 99999999999999999999 / back 0000000000 / back 00000000000 / back 4294967295"
        " / back 4294967296 / reset 8 16 4294967296 / counts"
    )
    shapes = [
        b"mark ", b" mark", b"mark\t", b"\tmark", b"\t", b" ", b"mark\tmark", b"mark\t0", b"counts\t", b"Mark", b"MARK", b"marks",
        b"mar", b"read\t4", b"read\t4\t0\t0", b"read\t4\t\t0", b"read\t\t4\t0", b"read\t4\t0\t", b"\tread\t4\t0", b"read 4 0",
        b"read\t4 0", b"read\t4\t 0", b"read\t4\t0 ", b"read\t+4\t0", b"read\t4\t-0", b"read\t4\t0x0", b"read\t4\t0.0",
        b"read\t4\t1_0", b"read\t4\t0\r", b"mark\r", b"\r", b"\x00", b"mark\x00", b"\x00mark", b"read\t4\t0\x00", b"read\t4\x00\t0",
        b"\xff", b"mark\xff", b"read\t4\t\xb2", b"read\t4\t\xd9\xa1", b"\xef\xbb\xbfmark", b"mark\x0b", b"mark\x0c", b"mark\x1a",
        b"read\t4\t0/", b"read\t4\t0:", b"read\t4\t\xc2\xa00", b"write\t4\t0", b"write\t4\t0\t1\t1", b"back", b"back\t", b"back\t1\t1",
        b"advance", b"advance\t1\t1", b"reset\t8\t16", b"reset\t8\t16\t2\t2", b"reset", b"RESET\t8\t16\t2", b"end", b"ok", b"line\t0",
        b"check", b"read\t4\t0", b"counts",
    ]
    return [
        (b"\n", 3),  # no answers
        (text("counts / mark / no record / mark") + b"\n" + text("reset 8 16 0"), 1),
        (b"reset\t8\t16\t2" + b"0" * 69 + b"\n", 1),  # 81 bytes before the first reset
        (b"reset\t8\t16\t2" + b"0" * 68 + b"\n", 1),  # 80 bytes: the number is too long
        (b"x", 5000),
        (b"\n" + text("reset 4096 256 1 / counts / read 5 0"), 1),
        (text("reset 0000000008 016 02 / write 4 0 305419896 / mark / write 1 1 255"), 1),
        (numbers, 1),
        (b"".join(shape + b"\n" for shape in shapes), 1),
        (b"counts" + b"\t" * 74 + b"\n", 1),  # 80 bytes
        (b"counts" + b"\t" * 75 + b"\n", 1),  # 81 bytes
        (b"m" * 79 + b"\r\n", 1),  # 80 bytes with the CR
        (b"m" * 80 + b"\r\n", 1),  # 81 bytes with the CR
        (b"\x00" * 81 + b"\n", 1),
        (b"\n", 100),
        (b"mark\t", 1000),  # 5,000 bytes, none a line feed
        (b"\n\n\n" + text("counts / reset 8 16 4097 / reset 520 16 2 / counts / read 4 0 / reset 8 16 2 / read 4 0 / counts"), 1),
        (b"write\t0000000004\t0000000124\t4294967295\n\nread\t4\t124", 1),  # the last line lacks its line feed
    ]


def blank():
    """Line feeds and nothing else: no answers."""
    return [(b"\n", 257)]


def tail():
    """The last line is too long and lacks its line feed."""
    return [(text("reset 8 16 1 / counts"), 1), (b"9", 81)]


def rollbacks():
    """More than 600 rollbacks, so that tags of 8 bits run out twice and more.

    Each of three parts begins at some frame b, writes lines 40 to 59 in the next four frames, under many tags, and takes them
    back. Two parts then mark these four frames anew, go through more rollbacks than there are tags, none of which reaches them,
    and read the lines again. If a tag is used again while such bits are stored, or a shallow rollback overwrites a deeper one,
    the lines come back. The third part is short; there the oldest frame passes the targets of the rollbacks. Lines 0, 16 and 32
    are written early and never again: sweeping must keep them. They share a set of the cache, so that each read of one looks
    at the frames.
    """
    mark = text("mark")
    # b is frame 13, so that the first part's frames lie in two working areas.
    start = text(
        "advance 13 / write 4 0 4042322160 / write 1 256 1 / write 1 512 2 / write 2 80 9 / write 2 336 10 / mark"
        " / write 1 256 3 / back 1"
        " / write 1 512 4"
    )
    # 3 rollbacks for each of 5 rows of lines, which are written in b+1, b+2, b+3 and b+4.
    stale = text(
        " / ".join(
            f"mark / write 1 {16 * line} 101 / mark / write 1 {16 * line + 16} 102 / back 1 / mark / mark"
            f" / write 1 {16 * line + 32} 103 / mark / write 1 {16 * line + 48} 104 / back 1 / back 3"
            for line in range(40, 60, 4)
        )
    )
    # A shallow rollback, to b+3, after the deep ones to b. The part goes on from b+4.
    shallow = text("mark / mark / mark / mark / back 1 / read 1 672 / mark / read 1 688 / read 1 752")
    # 2 rollbacks.
    short = text("mark / write 2 80 1 / mark / back 1 / back 1")
    # 3 rollbacks, each of which drops a line that is read again when its frame's number is live: for the rollbacks at which tags
    # run out. Lines 5, 21 and 37 share a set of the cache.
    close = text(
        "mark / read 2 592 / write 2 80 1 / mark / write 2 336 2 / back 1 / mark / read 2 336 / back 2 / mark / read 2 80"
        " / write 2 592 3"
        " / back 1"
    )
    # 4 rollbacks of other depths, with writes in the frame that a rollback came back to.
    deep = text(
        "mark / mark / mark / write 4 336 5 / back 1 / write 4 340 6 / mark / write 4 80 7 / back 2 / read 4 340 / mark"
        " / write 4 84 8 / back 1 / read 4 84 / mark / back 2 / read 4 80"
    )
    probe = text(
        "read 1 640 / read 1 656 / read 1 704 / read 1 720 / read 1 768 / read 1 800 / read 1 816 / read 1 832 / read 1 896"
        " / read 1 944"
        " / read 4 0 / read 1 256 / read 1 512 / counts"
    )
    # b+3 is now the oldest frame, and still nothing comes back.
    passed = text(
        "mark / mark / mark / mark / advance 11 / counts / read 1 672 / read 1 688 / read 4 0 / read 1 256 / read 1 512"
        " / write 2 80 11"
    )
    last = text(
        "read 1 736 / read 1 752 / read 1 800 / read 1 816 / back 1 / read 1 864 / read 1 880 / read 4 0 / read 1 256"
        " / read 1 512 / counts"
    )
    return [
        (text("reset 64 32 64"), 1),
        (mark, 13),
        (start, 1),
        (stale, 1),
        (shallow, 1),
        (short, 113),
        (close, 8),  # rollbacks 244 to 267
        (short, 10),
        (probe, 1),
        (stale, 1),
        (shallow, 1),
        (deep, 4),
        (short, 89),
        (close, 8),  # rollbacks 498 to 521
        (short, 24),
        (probe, 1),
        (stale, 1),
        (passed, 1),
        (short, 25),
        (last, 1),
    ]


def pool():
    """A full pool of 4 pages, given back by back and by advance."""
    full = text(
        "reset 64 16 4 / counts / write 1 0 1 / write 1 127 2 / counts / write 1 128 3 / counts / mark / write 1 0 4"
        " / counts"
        " / write 1 512 5 / counts / write 1 256 6 / read 1 256 / counts / write 1 511 6 / write 1 640 6 / write 1 128 7"
        " / write 1 1 8 / write 1 513 9 / mark / counts / write 1 0 10 / write 1 0 256 / read 1 0 / read 1 128"
    )
    by_back = text(
        "back 1 / counts / write 1 256 11 / back 1 / counts / read 1 0 / read 1 512 / write 1 256 12 / write 1 512 13"
        " / write 1 640 14 / counts / read 1 640 / mark / write 1 0 15 / counts"
    )
    by_advance = text(
        "advance 1 / counts / write 1 0 16 / counts / write 1 128 17 / write 1 256 18 / write 1 512 19 / counts"
        " / write 1 640 20"
        " / mark / write 1 640 21 / read 1 640 / read 1 512 / advance 1 / counts / write 1 640 22 / counts / read 1 640"
    )
    # Pages are given back by back and by advance, over and over, with 13 before and after.
    both = text(
        "mark / write 1 768 1 / write 1 0 2 / mark / write 1 768 3 / write 1 896 4 / back 1 / read 1 768 / write 1 896 5"
        " / read 1 896"
        " / advance 1 / counts"
    )
    # Frames hold a page for each block, not for each line, and an unchanged byte takes a page too.
    one = text(
        "reset 16 16 1 / write 1 0 0 / counts / write 1 128 0 / mark / write 1 16 0 / read 1 16 / back 1 / write 1 16 0"
        " / read 1 16"
        " / counts / mark / advance 1 / counts / write 1 128 0 / write 1 0 0 / read 1 0 / read 1 128 / counts"
    )
    return [(full, 1), (by_back, 1), (by_advance, 1), (both, 12), (one, 1)]


def circle():
    """The circle of 16 frames is gone round many times by marks and advances, with rollbacks across its seam."""
    start = text(
        "reset 40 16 64 / write 4 0 16909060 / mark / mark / write 2 34 1 / mark / mark / write 2 66 2 / mark / mark / mark"
        " / mark / counts"
    )
    # 7 frames on. Lines 0, 16 and 32 share a set of the cache, so that most reads of one look at the frames; line 0 is seldom
    # written. Every write changes what stood there, so that a version lost shows, or one found too many.
    around = text(
        "mark / write 2 34 3 / mark / mark / write 1 256 4 / back 1 / read 1 256 / mark / write 1 256 5 / read 4 0 / mark"
        " / write 4 512 6 / mark / write 4 512 7 / mark / back 2 / read 4 512 / mark / mark / write 4 512 8 / mark"
        " / read 4 512"
        " / read 1 256 / write 2 34 9 / write 1 256 12 / advance 2 / read 2 66 / advance 5 / counts"
    )
    seldom = text("read 4 0 / read 2 34 / read 2 66 / read 4 512 / write 4 0 84281096 / write 2 66 10 / mark / advance 1")
    # All frames live: marks until there is no frame left.
    full = text("mark / write 1 600 1 / mark / write 1 601 2")
    seam = text(
        "counts / back 5 / counts / read 1 600 / read 1 601 / mark / read 1 600 / mark / mark / advance 9 / read 1 600"
        " / read 1 601"
        " / read 4 0 / counts / mark / write 1 601 3 / back 1 / read 1 601"
    )
    # Marks and advances alone: nothing is written, nothing may be lost.
    bare = text("mark / mark / mark / advance 3 / read 4 0 / read 1 256 / read 4 512")
    # From frame 13, the last before the seam but two. A deep rollback, to 14, and then a shallow one, to 1, over a line written
    # in 0; then the shallow one first. At the end several versions of line 4 are folded, and the newest wins.
    depths = text(
        "advance 13 / mark / mark / mark / write 1 0 1 / mark / write 1 16 2 / back 3 / mark / mark / mark / mark / back 1"
        " / read 1 0 / read 1 16"
        " / write 1 48 3 / mark / back 1 / back 3 / mark / mark / mark / read 1 48 / write 1 64 4 / mark / write 1 64 5"
        " / mark / write 1 64 6"
        " / mark / advance 7 / read 1 320 / read 1 576 / read 1 64 / counts"
    )
    return [
        (start, 1),
        (around, 11),
        (seldom, 1),
        (around, 11),
        (seldom, 1),
        (full, 5),
        (seam, 1),
        (bare, 33),
        (around, 9),
        (seldom, 1),
        (text("reset 40 16 64"), 1),
        (text("mark"), 13),
        (depths, 1),
    ]


def cache():
    """What the cache holds: lines 0, 16, 32 and 48 (addresses 0, 256, 512 and 768) share the set 0."""
    # All four lines collected, so that a read tells whether the cache holds them, and none of them in the cache.
    four = (
        "write 1 0 9 / mark / advance 1 / write 1 256 9 / mark / advance 1 / write 1 512 9 / mark / advance 1 / write 1 768 9"
        " / mark / advance 1 / mark / write 1 512 8 / back 1 / mark / write 1 768 8 / back 1"
    )
    uses = text(
        f"reset 64 16 64 / {four} / read 1 0 / read 1 256 / read 1 0 / read 1 512 / read 1 0 / read 1 256 / read 1 512 / read 1 0"
        # A write loads, and counts as use.
        " / write 1 768 1 / read 1 768 / read 1 0 / write 1 769 2 / read 1 256 / read 1 768 / read 1 0 / write 1 256 3"
        " / read 2 768"
    )
    # A refused call neither loads nor counts; nor do mark, counts and advance.
    refused = text(
        f"reset 64 16 1 / {four} / read 1 0 / read 1 256 / write 1 0 1 / mark / write 1 256 1 / read 3 256 / write 1 256 256"
        " / read 2 257 / counts"
        " / write 1 512 1 / read 1 512 / read 1 0 / read 1 256 / read 1 256 / read 1 0 / mark / counts / advance 2"
        " / read 1 512 / read 1 0 / read 1 256"
    )
    # Rollback: exactly the lines whose most recent version lay in a dropped frame. Then way 0 is taken if it is invalid, else way 1,
    # whatever was used last.
    dropped = text(
        f"reset 64 16 64 / {four} / write 1 0 1 / mark / read 1 256 / read 1 0 / back 1 / read 1 256 / read 1 0"
        " / mark / write 1 256 2 / back 1 / read 1 0 / read 1 256"
        " / mark / write 1 256 3 / back 1 / read 1 512 / read 1 0 / read 1 512"
        " / mark / write 1 512 4 / write 1 0 5 / back 1 / read 1 768 / read 1 0 / read 1 256 / read 1 0 / read 1 768"
        " / mark / write 1 0 6 / back 1 / read 1 512 / read 1 256 / read 1 768 / read 1 512"
        " / write 1 1 7 / mark / write 1 1 8 / mark / write 1 257 9 / back 1 / read 1 1 / read 1 257 / back 1 / read 1 257"
        " / read 1 1"
    )
    # A collected line's entry counts as archive: its frame's number comes round again and is dropped, and the entry stays.
    collected = text("reset 64 16 64 / mark / write 1 0 1 / write 1 16 2 / mark / write 1 32 3 / advance 2")
    round_once = text("mark / advance 1")
    number_again = text(
        "mark / mark / write 1 16 4 / back 1 / read 1 0 / read 1 16 / read 1 32 / counts / back 1 / read 1 0 / read 1 16"
        " / read 1 32"
    )
    return [(uses, 1), (refused, 1), (dropped, 1), (collected, 1), (round_once, 14), (number_again, 1)]


def untouched():
    """Lines that no surviving write has touched (request 2.3). Lines 0, 16 and 32 share the set 0 of the cache."""
    # Such a line is loaded, counts as used, and pushes out others: line 32 pushes out line 16, since line 0 was used again; then line 16 pushes
    # out line 0, line 0 line 32, and line 32 line 16.
    uses = text("reset 64 16 8 / read 1 0 / write 1 256 1 / read 1 0 / read 1 512 / read 1 256 / read 1 0 / read 1 512 / read 1 256")
    # A write that changes no byte touches the whole line, and taking back a line's only write makes it empty again.
    back = text(
        "write 1 16 0 / read 1 31 / mark / write 1 32 5 / read 1 32 / back 1 / read 1 32 / read 1 32 / mark / write 1 32 6 / mark"
        " / write 1 32 7 / back 1 / read 1 32 / back 1 / read 1 32"
    )
    # Lines 1, 2 and 3 are collected with the oldest frame, with the next, and with both; line 8 with none. Their newest versions are taken back.
    collected = text(
        "reset 64 16 8 / write 1 16 1 / write 1 48 2 / mark / write 1 32 0 / write 1 48 3 / mark / mark / write 1 16 4 / write 1 32 5"
        " / write 1 48 6 / write 1 128 8 / advance 2 / back 1 / read 1 16 / read 1 32 / read 1 48 / read 1 128 / read 1 33 / read 1 129"
    )
    # A reset forgets what was collected, of as many lines as it asks for.
    forgotten = text(
        "reset 512 16 2 / write 1 0 1 / write 1 8176 2 / mark / advance 1 / read 1 0 / read 1 8176 / reset 8 16 2 / read 1 0"
        " / write 1 112 3 / mark / advance 1 / read 1 112 / reset 512 16 2 / read 1 0 / read 1 112 / read 1 8176 / counts"
    )
    return [(uses, 1), (back, 1), (collected, 1), (forgotten, 1)]


class Draws:
    """A small linear congruential generator; its seed is fixed, so a session never changes."""

    def __init__(self, seed):
        self.state = seed

    def below(self, n):
        self.state = (self.state * 6364136223846793005 + 1442695040888963407) % 2**64
        return (self.state >> 32) % n


def odd_call(draws, lines, address):
    """A line that is refused, mostly: no record, or arguments near their limits."""
    return (
        ("mark 1", "read 4", "Counts", "back", "advance 1 ", "write 1 0 4294967296")[draws.below(6)],
        f"read {3 * draws.below(2)} {address}",
        f"write {2 + 2 * draws.below(2)} {address + 1} {draws.below(256)}",
        f"read 4 {16 * lines - 4 + 4 * draws.below(3)}",
        f"write 1 {address} {254 + draws.below(4)}",
        f"write 2 {address - address % 2} {65534 + draws.below(4)}",
    )[draws.below(6)]


def mixed():
    """Some 400 lines under several settings.

    Each row: a reset, the lines, how many calls follow, and the shares of mark, back, advance, counts and odd calls in a hundred;
    the rest is reads and writes. After most rollbacks an address lately written is read.
    """
    draws = Draws(354)  # a seed with which every refusal but 1 and 5 comes, and every kind of origin
    calls = []
    for reset, lines, count, mark, back, advance, counts, odd in (
        ("counts", 8, 4, 20, 20, 20, 20, 20),  # no reset yet
        ("reset 8 16 1", 8, 35, 12, 12, 4, 6, 8),
        ("reset 32 16 8", 32, 75, 16, 14, 2, 5, 5),
        ("reset 33 16 8", 32, 15, 15, 15, 5, 5, 5),  # refused: the old store stays
        ("reset 16 16 3", 16, 50, 16, 14, 4, 6, 10),
        ("reset 24 16 5", 24, 50, 16, 14, 2, 6, 6),
        ("reset 24 16 5", 24, 40, 16, 14, 2, 6, 6),  # the same settings once more: all is forgotten
        ("reset 8 16 300", 24, 15, 15, 15, 5, 5, 10),  # refused: the old store stays
        ("reset 32 16 2", 32, 45, 55, 3, 1, 6, 8),
        ("reset 16 16 8", 16, 75, 18, 16, 3, 4, 3),
    ):
        calls.append(reset)
        recent = [(4, 0)] * 3
        for _ in range(count):
            kind = draws.below(100)
            width = (1, 2, 4)[draws.below(3)]
            address = draws.below(16 * lines if draws.below(3) == 0 else 64) // width * width
            if calls[-1].startswith("back") and draws.below(4):
                calls.append("read %d %d" % recent[draws.below(3)])
            elif kind < mark:
                calls.append("mark")
            elif kind < mark + back:
                calls.append(f"back {draws.below(4) if draws.below(4) == 0 else 1 + draws.below(2)}")
            elif kind < mark + back + advance:
                calls.append(f"advance {draws.below(5)}")
            elif kind < mark + back + advance + counts:
                calls.append("counts")
            elif kind < mark + back + advance + counts + odd:
                calls.append(odd_call(draws, lines, address))
            elif draws.below(2):
                calls.append(f"write {width} {address} {draws.below(256**width)}")
                recent = [(width, address), *recent[:2]]
            else:
                calls.append(f"read {width} {address}")
    return [(text(" / ".join(calls)), 1)]


SESSIONS = [
    ("empty", empty()),
    ("refusals", refusals()),
    ("lines", lines()),
    ("blank", blank()),
    ("tail", tail()),
    ("rollbacks", rollbacks()),
    ("pool", pool()),
    ("circle", circle()),
    ("cache", cache()),
    ("untouched", untouched()),
    ("mixed", mixed()),
]


def joined(pieces):
    """A session's bytes."""
    return b"".join(piece * repeat for piece, repeat in pieces)


def literal(piece):
    """A piece as the inside of a byte string."""
    named = {9: "\\t", 10: "\\n", 13: "\\r", 34: '\\"', 92: "\\\\"}
    return "".join(named.get(b) or (chr(b) if 32 <= b < 127 else f"\\x{b:02x}") for b in piece)


def script(name, pieces):
    """A session's script: for its name line and for each piece how often it comes and its length, two bytes each, and then its bytes."""
    parts = [(f"== {name}\n".encode(), 1), *pieces]
    return "".join("".join(f"\\x{b:02x}" for n in (repeat, len(piece)) for b in divmod(n, 256)) + literal(piece) for piece, repeat in parts)


def rattle():
    """src/sessions.rt, before `rt fmt`."""
    yield "// The test sessions, as scripts for `put`. Written by sessions.py."
    yield f"pub const SESSIONS: [&[u8]; {len(SESSIONS)}] = ["
    for name, pieces in SESSIONS:
        yield f'    b"{script(name, pieces)}",'
    yield "];"


if __name__ == "__main__":
    if sys.argv[1:] == ["--rattle"]:
        print("\n".join(rattle()))
    elif sys.argv[1:]:
        sys.stdout.buffer.write(joined(dict(SESSIONS)[sys.argv[1]]))
    else:
        for name, pieces in SESSIONS:
            session = joined(pieces)
            print(f"{name:10} {len(pieces):2} pieces of {sum(len(piece) for piece, _ in pieces):5} bytes,", end=" ")
            print(f"{len(session):6} bytes and {session.count(10):5} line feeds of input")
