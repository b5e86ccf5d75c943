#!/usr/bin/env python3
"""Draws docs/picture.svg: lines, frames, pages and the archive after some records of examples/picture.session.

    tools/draw_picture.py > docs/picture.svg

A small model plays the session, and each of its answers is compared with the runner's in examples/picture.expected: the picture shows
nothing that the runner does not say. Reads are compared by value and by origin, but for the cache, which the picture leaves out.
"""
import pathlib
import sys

EXAMPLES = pathlib.Path(__file__).resolve().parent.parent / "examples"
LINES = (0, 1, 8)  # the lines shown: two of block 0, one of block 1
FRAMES = 2  # the frames shown

# Of each panel: the record after which it is drawn, counted from 1, the records that it names, and what it shows.
PANELS = [
    (3, "reset 16 16 3, write 4 0 11, write 4 128 88", "Each block that is written takes a page."),
    (8, "mark, write 4 0 12, write 4 16 21", "Lines of one block share a page. write 4 128 89 now gets 13."),
    (11, "back 1", "Frame 1 is dropped, and its page is free."),
    (16, "mark, advance 1", "Frame 0 is folded into the archive."),
]


class Model:
    """What there is to draw of a store: versions by frame and line, the archive, and whose each page is."""

    def __init__(self, lines, frames, pages):
        self.count, self.pages = frames, pages
        self.archive = {line: 0 for line in range(lines)}
        self.collected = set()  # the lines of which a version was folded into it
        self.live = [(0, {})]  # frames with their versions, the oldest first
        self.ring = []  # the places of the pages needed, those of older frames first
        self.first = 0  # the page of the first of them

    def write(self, line, value):
        frame, versions = self.live[-1]
        place = (frame, line // 8)
        if place not in self.ring:
            if len(self.ring) == self.pages:
                return ["no", "13"]
            self.ring.append(place)
        versions[line] = value
        return ["ok"]

    def read(self, line):
        for back, (_, versions) in enumerate(reversed(self.live)):
            if line in versions:
                return ["ok", str(versions[line]), str(back)]
        return ["ok", str(self.archive[line]), "a" if line in self.collected else "e"]

    def mark(self):
        self.live.append(((self.live[-1][0] + 1) % self.count, {}))
        return ["ok"]

    def back(self, k):
        self.live = self.live[:-k]
        self.keep_live()
        return ["ok"]

    def advance(self, k):
        for _, versions in self.live[:k]:
            self.archive.update(versions)
            self.collected.update(versions)
        self.live = self.live[k:]
        self.first += sum(frame not in dict(self.live) for frame, _ in self.ring)
        self.keep_live()
        return ["ok"]

    def keep_live(self):
        self.ring = [place for place in self.ring if place[0] in dict(self.live)]

    def page_of(self, place):
        return (self.first + self.ring.index(place)) % self.pages if place in self.ring else None

    def owner_of(self, page):
        index = (page - self.first) % self.pages
        return self.ring[index] if index < len(self.ring) else None

    def answer(self, record, numbers):
        if record == "reset":
            self.__init__(*numbers)
            return ["ok"]
        if record in ("read", "write"):
            return getattr(self, record)(numbers[1] // 16, *numbers[2:])
        if record == "counts":
            return ["ok", str(len(self.live)), str(len(self.ring))]
        return getattr(self, record)(*numbers)


def states():
    """The store after each record. Ends the program where an answer is not the runner's."""
    model = Model(8, 16, 1)
    records = (EXAMPLES / "picture.session").read_text().splitlines()
    answers = (EXAMPLES / "picture.expected").read_text().splitlines()
    for record, answer in zip(records, answers):
        word, *numbers = record.split("\t")
        mine, runners = model.answer(word, [int(number) for number in numbers]), answer.split("\t")
        if word == "read" and runners[-1] == "c":
            mine, runners = mine[:-1], runners[:-1]
        if mine != runners:
            sys.exit(f"draw_picture: {record}: the runner answers {runners}, the model {mine}")
        yield model


# ---- drawing

WIDE, HIGH, GAP, EDGE = 474, 238, 14, 14
LABEL, COLUMN, BETWEEN, ROW = 100, 82, 10, 22
INK, FAINT, ARCHIVE = "#1f2328", "#7d8590", "#59636e"
COLOURS = ["#0969da", "#bc4c00"]  # of the frames
TINTS = ["#ddf4ff", "#fff1e5"]
GREY = "#eaeef2"


def text(x, y, words, size=13, fill=INK, anchor="start", **more):
    attributes = "".join(f' {name.replace("_", "-")}="{value}"' for name, value in more.items())
    return f'<text x="{x:g}" y="{y:g}" font-size="{size}" fill="{fill}" text-anchor="{anchor}"{attributes}>{words}</text>'


def box(x, y, wide, high, fill, stroke, dashed=False):
    dash = ' stroke-dasharray="4 3"' if dashed else ""
    return f'<rect x="{x:g}" y="{y:g}" width="{wide:g}" height="{high:g}" rx="4" fill="{fill}" stroke="{stroke}"{dash}/>'


def block_rows():
    """For each block shown: its number, the lines shown of it, and where it starts below the grid's top."""
    top = 0
    for block in sorted({line // 8 for line in LINES}):
        lines = [line for line in LINES if line // 8 == block]
        yield block, lines, top
        top += ROW * len(lines) + BETWEEN


def panel(number, x, y, records, words, model):
    yield box(x, y, WIDE, HIGH, "#ffffff", "#d0d7de")
    yield text(x + 14, y + 25, f"{number}", 17, INK, font_weight="bold")
    yield text(x + 32, y + 25, records, 13, font_family="monospace")
    yield text(x + 32, y + 44, words, 13, ARCHIVE)

    grid = y + 88
    left = [x + LABEL + 10 + i * (COLUMN + BETWEEN) for i in range(FRAMES + 2)]
    live = dict(model.live)
    heads = [("archive", "", ARCHIVE)]
    for frame in range(FRAMES):
        names = [name for name, at in (("OMF", 0), ("CMF", -1)) if model.live[at][0] == frame]
        heads.append((f"frame {frame}", ", ".join(names) or "free", COLOURS[frame] if frame in live else FAINT))
    heads.append(("read gives", "", INK))
    for at, (name, under, fill) in zip(left, heads):
        yield text(at + COLUMN / 2, grid - (20 if under else 8), name, 13, fill, "middle", font_weight="bold")
        if under:
            yield text(at + COLUMN / 2, grid - 6, under, 12, fill, "middle")

    for block, lines, below in block_rows():
        top, high = grid + below, ROW * len(lines)
        yield text(x + 12, top + 16, f"block {block}", 12)
        yield box(left[0], top, COLUMN, high, GREY, ARCHIVE)
        for frame in range(FRAMES):
            page = model.page_of((frame, block))
            at = left[frame + 1]
            if page is None:
                yield box(at, top, COLUMN, high, "none", FAINT, dashed=True)
            else:
                yield box(at, top, COLUMN, high, TINTS[frame], COLOURS[frame])
                yield text(at + 6, top + 15, f"page {page}", 12, COLOURS[frame])
        for row, line in enumerate(lines):
            base = top + ROW * row + 16
            yield text(x + LABEL + 2, base, f"line {line}", 12, INK, "end")
            yield text(left[0] + COLUMN - 10, base, model.archive[line], 13, INK, "end")
            for frame in range(FRAMES):
                if line in live.get(frame, {}):
                    yield text(left[frame + 1] + COLUMN - 10, base, live[frame][line], 13, COLOURS[frame], "end", font_weight="bold")
            _, value, origin = model.read(line)
            if origin == "e":
                yield text(left[-1] + COLUMN / 2, base, "empty", 12, FAINT, "middle")
                continue
            frame = None if origin == "a" else model.live[-1 - int(origin)][0]
            fill = ARCHIVE if frame is None else COLOURS[frame]
            yield text(left[-1] + COLUMN / 2, base, value, 13, fill, "middle", font_weight="bold")

    low = y + HIGH - 50
    yield text(x + LABEL + 2, low + 22, "pages", 12, INK, "end")
    wide = ((FRAMES + 1) * (COLUMN + BETWEEN) - model.pages * BETWEEN) / model.pages
    for page in range(model.pages):
        at, owner = left[0] + page * (wide + BETWEEN), model.owner_of(page)
        frame = owner and owner[0]
        yield box(at, low, wide, 36, "none" if owner is None else TINTS[frame], FAINT if owner is None else COLOURS[frame], owner is None)
        yield text(at + wide / 2, low + 15, f"page {page}", 12, FAINT if owner is None else COLOURS[frame], "middle")
        told = "free" if owner is None else f"block {owner[1]}"
        yield text(at + wide / 2, low + 29, told, 12, FAINT if owner is None else COLOURS[frame], "middle")
    yield text(left[-1] + COLUMN / 2, low + 15, f"{len(model.ring)} of {model.pages}", 12, INK, "middle")
    yield text(left[-1] + COLUMN / 2, low + 29, "needed", 12, INK, "middle")


def picture():
    wide, high = 2 * EDGE + 2 * WIDE + GAP, 2 * EDGE + 2 * HIGH + GAP
    yield f'<svg xmlns="http://www.w3.org/2000/svg" width="{wide}" height="{high}" viewBox="0 0 {wide} {high}" font-family="sans-serif">'
    yield "<title>Lines, frames, pages and the archive through a mark, a rollback and an advance</title>"
    yield f'<rect width="{wide}" height="{high}" rx="8" fill="#f6f8fa"/>'
    panels = {after: (number, records, words) for number, (after, records, words) in enumerate(PANELS, 1)}
    for count, model in enumerate(states(), 1):
        if count in panels:
            number, records, words = panels[count]
            x = EDGE + (number - 1) % 2 * (WIDE + GAP)
            y = EDGE + (number - 1) // 2 * (HIGH + GAP)
            yield from panel(number, x, y, records, words, model)
    yield "</svg>"


if __name__ == "__main__":
    for element in list(picture()):
        print(element)
