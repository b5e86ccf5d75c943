#!/usr/bin/env python3
"""Writes a long session, always the same, to standard output.

    python3 long_session.py [LINES] > session        (10,000,000 lines unless told otherwise)

The mix is roughly that of the report's section VI: 20 reads and writes between marks, four reads to a write, addresses near a
centre that moves every 7.5 marks, a rollback every 11.4 marks, by 2.2 marks on average. Whenever 60 frames are live the oldest
half is advanced past, so that no rollback is too deep and the 256 pages suffice: nearly every call is accepted.
"""

import sys

LINES, FRAMES, PAGES = 512, 256, 256
MOST_LIVE = 60
# Cut points of the exponential distribution with mean 2.2, in 256ths: a byte below the first gives distance 1, and so on.
DISTANCES = [256 * (1 - (1 - 1 / 2.2) ** k) for k in range(1, 12)]


def records(count):
    """The records, each with its line feed."""
    # Texts made once: every read by width and address, and the first part of every write.
    addresses = range(16 * LINES)
    reads = [[b"read\t%d\t%d\n" % (width, at & -width) for at in addresses] for width in (1, 2, 4, 4)]
    writes = [[b"write\t%d\t%d\t" % (width, at & -width) for at in addresses] for width in (1, 2, 4, 4)]
    values = [0xFF, 0xFFFF, 0xFFFFFFFF, 0xFFFFFFFF]
    state, live, centre = 1988, 1, 0
    yield b"reset\t%d\t%d\t%d\n" % (LINES, FRAMES, PAGES)
    made = 1
    while made < count:
        state = (state * 6364136223846793005 + 1442695040888963407) & 0xFFFFFFFFFFFFFFFF
        draw = state >> 16
        made += 1
        if draw % 21:
            # An offset from the centre, a hump of three draws: within 48 lines, mostly within 20 in its middle.
            offset = (draw >> 8 & 255) + (draw >> 17 & 255) + (draw >> 26 & 255)
            address = centre + offset & 16 * LINES - 1
            kind = draw >> 35 & 3
            if draw % 5:
                yield reads[kind][address]
            else:
                yield writes[kind][address] + b"%d\n" % (state >> 20 & values[kind])
            continue
        # A mark; then perhaps a rollback, an advance, a new centre.
        yield b"mark\n"
        live += 1
        if (draw >> 12) % 15 < 2:
            centre = draw >> 24 & 16 * LINES - 1
        if (draw >> 8) % 114 < 10 and made < count:
            distance = 1 + sum(cut <= (draw >> 38 & 255) for cut in DISTANCES)
            distance = min(distance, live - 1)
            yield b"back\t%d\n" % distance
            live -= distance
            made += 1
        elif live >= MOST_LIVE and made < count:
            yield b"advance\t%d\n" % (live // 2)
            live -= live // 2
            made += 1


def main():
    count = int(sys.argv[1]) if sys.argv[1:] else 10_000_000
    out, some = sys.stdout.buffer, []
    for record in records(count):
        some.append(record)
        if len(some) == 65536:
            out.write(b"".join(some))
            some.clear()
    out.write(b"".join(some))


if __name__ == "__main__":
    main()
