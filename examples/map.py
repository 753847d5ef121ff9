#!/usr/bin/env python3
"""Turns a drawn map into a scenario file, and back.

    python3 map.py file < maze.map > maze.scenario
    python3 map.py text < maze.scenario > maze.map
    python3 map.py --help

A map is text: a head, the line `map`, and the rows. Lines of the head, in any order:

    ticks 10             ticks per turn, 1 to 65,535
    ground 10            the slowness that the file stores once; best the one that most cells have
    . = 10               in rows this letter is a cell of slowness 10; slownesses are 0 to 4,095
    # = 0                .. a wall
    f = 10:30            .. a cell of slowness 10 along the row and 30 down the column
    S = 10 start 0       .. a cell of slowness 10 where a front starts at time 0; times are 0 to 1,000,000
    start 4 2 500        a front starts in column 4 of row 2, counted from 0, at time 500

One number is the slowness both ways; `10:30` has two, with no space between, wherever a slowness stands. A wall has
both at 0, and no other cell has one of them at 0.

Each row then has one letter a cell: any sign but a space and `/`. After `map numbers` in place of `map` it has one
slowness a cell, with spaces between. There are 1 to 256 rows of 1 to 256 cells.

A house has up to 8 storeys. They are drawn one below the other, from storey 0 on, and all have as many rows. Before the
rows of each but the first stands its number, and a start may name a storey:

    storey 1                  the rows of storey 1 follow
    start 4 2 500 storey 1    in the head: a front starts in column 4 of row 2 of storey 1, at time 500

There are at most 65,536 cells in all. With 2 storeys or more a slowness is one number, the same both ways.

In every line `//` and what stands behind it is a remark. Empty lines, spaces before and behind a line's text, and a
byte order mark do no harm; a space between the letters of a row is refused.

What the script refuses it shows with its line. Whether the board is a good one is for the library to say: a start may
stand on a wall, and `rings` then prints the number that it has against the file. refusal.py has the numbers in words.
"""

import contextlib
import io
import struct
import sys

RANGES = {
    "ticks": (1, 65535), "ground": (0, 4095), "slowness": (0, 4095), "start time": (0, 1000000),
    "width": (1, 256), "height": (1, 256), "storeys": (1, 8), "cells": (1, 65536),
    "column": (0, 255), "row": (0, 255), "storey": (0, 7),
}
LETTERS = "abcdefghijklmnopqrstuvwxyzABCDEFGHIJKLMNOPQRSTUVWXYZ"
HEAD, RUN, START = struct.Struct("<HHHHHHII"), struct.Struct("<IIHH"), struct.Struct("<II")
WALL = (0, 0)


class Problem(Exception):
    pass


class Board:
    """What a map and a file both hold: slownesses storey by storey and row by row, starts as times by cell. A slowness
    is a pair of numbers, along the row and down the column."""

    def __init__(self, width, height, storeys, ticks, ground, slow, starts):
        self.width, self.height, self.storeys, self.ticks, self.ground = width, height, storeys, ticks, ground
        self.slow, self.starts = slow, starts
        for along, down in sorted({ground, *slow}):
            if storeys > 1 and along != down:
                raise Problem(f"slowness `{along}:{down}` is two numbers; with 2 storeys or more it is one")


@contextlib.contextmanager
def shown(place, line):
    """Says in which line of a map a problem is."""
    try:
        yield
    except Problem as problem:
        raise Problem(f"line {place}: {problem}: {line.strip()[:60]}") from None


def number(name, word):
    """The number that a word stands for; as a float first, which takes a word of any length."""
    least, most = RANGES[name]
    if not (word.isascii() and word.isdigit() and least <= float(word) <= most):
        raise Problem(f"{name} `{word[:20]}` is not a number from {least} to {most:,}")
    return int(float(word))


def in_range(name, value):
    return number(name, str(value))


def pair(name, word):
    """The slowness that a word stands for: one number for both ways, or two."""
    numbers = [number(name, part) for part in word.split(":", 1)]
    along, down = numbers[0], numbers[-1]
    if (along == 0) != (down == 0):
        raise Problem(f"{name} `{word[:20]}` has one number that is 0, and a wall has two")
    return along, down


def word_for(slowness):
    along, down = slowness
    return str(along) if along == down else f"{along}:{down}"


def head_line(words):
    """The name in a line of the head, and what the line gives it: a letter's slowness and start time, or none."""
    name, *rest = words
    if name in ("ticks", "ground"):
        what, read = {"ticks": ("number", number), "ground": ("slowness", pair)}[name]
        if len(rest) != 1:
            raise Problem(f"`{name}` has one {what} behind it")
        return name, read(name, rest[0])
    if len(name) != 1 or rest[:1] != ["="]:
        raise Problem("not a line of a map's head; rows stand behind a line `map`")
    if name == "/":
        raise Problem("`/` is no letter: two of them begin a remark")
    if len(rest) == 2:
        return name, (pair("slowness", rest[1]), None)
    if len(rest) == 4 and rest[2] == "start":
        return name, (pair("slowness", rest[1]), number("start time", rest[3]))
    raise Problem("a letter is `LETTER = SLOWNESS` or `LETTER = SLOWNESS start TIME`")


def start_line(words):
    """Column, row, time and storey."""
    if len(words) == 4:
        words = words + ["storey", "0"]
    if len(words) != 6 or words[4] != "storey":
        raise Problem("a start is `start COLUMN ROW TIME` or `start COLUMN ROW TIME storey STOREY`")
    names = ("column", "row", "start time", "storey")
    return [number(name, word) for name, word in zip(names, words[1:4] + words[5:])]


def cells_of(row, letters):
    """Slowness and start time of each cell of a row; `letters` is none where rows are numbers."""
    if letters is None:
        return [(pair("slowness", word), None) for word in row.split()]
    for letter in row:
        if letter.isspace():
            raise Problem("a space between the letters of a row")
        if letter not in letters:
            raise Problem(f"the head has no line for `{letter}`")
    return [letters[letter] for letter in row]


def add_row(storeys, cells):
    first, rows = storeys[0], storeys[-1]
    if first and len(cells) != len(first[0]):
        raise Problem(f"a row of {len(cells)} cells, the first has {len(first[0])}")
    if len(storeys) > 1 and len(rows) == len(first):
        raise Problem(f"a row more than the {len(first)} of storey 0")
    in_range("width", len(cells))
    in_range("height", len(rows) + 1)
    rows.append(cells)
    in_range("cells", sum(map(len, storeys)) * len(cells))


def end_storey(storeys):
    if not storeys[0]:
        raise Problem("there are no rows behind the line `map`")
    if len(storeys[-1]) != len(storeys[0]):
        raise Problem(f"storey {len(storeys) - 1} has {len(storeys[-1])} rows, storey 0 has {len(storeys[0])}")


def begin_storey(storeys, word):
    if number("storey", word) != len(storeys):
        raise Problem(f"the storey that comes next is {len(storeys)}")
    end_storey(storeys)
    storeys.append([])


def from_text(text):
    head, placed, storeys, letters = {}, [], None, None
    for place, line in enumerate(io.StringIO(text, newline=None), 1):
        bare = line.partition("//")[0].strip()
        words = bare.split()
        with shown(place, line):
            if not words:
                continue
            if storeys is not None and words[0] == "storey" and len(words) == 2:
                begin_storey(storeys, words[1])
            elif storeys is not None:
                add_row(storeys, cells_of(bare, letters))
            elif words in (["map"], ["map", "numbers"]):
                storeys, letters = [[]], head if len(words) == 1 else None
            elif words[0] == "start":
                placed.append((place, line, start_line(words)))
            else:
                name, given = head_line(words)
                if name in head:
                    raise Problem(f"`{name}` is given twice")
                head[name] = given
    for name in ("ticks", "ground"):
        if name not in head:
            raise Problem(f"the head has no line `{name}`")
    if storeys is None:
        raise Problem("there is no line `map`")
    end_storey(storeys)
    return board_of(head["ticks"], head["ground"], storeys, placed)


def board_of(ticks, ground, storeys, placed):
    width, height, high = len(storeys[0][0]), len(storeys[0]), len(storeys)
    cells = [cell for rows in storeys for row in rows for cell in row]
    starts = {cell: time for cell, (_, time) in enumerate(cells) if time is not None}
    for place, line, (column, row, time, storey) in placed:
        with shown(place, line):
            if column >= width:
                raise Problem(f"column {column} is off the board, which is {width} wide")
            if row >= height:
                raise Problem(f"row {row} is off the board, which is {height} high")
            if storey >= high:
                raise Problem(f"storey {storey} is off the board, whose last one is {high - 1}")
            cell = (storey * height + row) * width + column
            if cell in starts:
                raise Problem("the cell has a start already")
            starts[cell] = time
    return Board(width, height, high, ticks, ground, [slow for slow, _ in cells], starts)


def runs_of(board):
    runs = []
    for cell, slow in enumerate(board.slow):
        if slow == board.ground:
            continue
        if runs and runs[-1][2] == slow and sum(runs[-1][:2]) == cell:
            runs[-1][1] += 1
        else:
            runs.append([cell, 1, slow])
    return runs


def to_file(board):
    runs, starts = runs_of(board), sorted(board.starts.items())
    sides = board.width, board.height, board.storeys
    head = HEAD.pack(*sides, board.ticks, *board.ground, len(runs), len(starts))
    body = [RUN.pack(cell, length, *slow) for cell, length, slow in runs] + [START.pack(*start) for start in starts]
    return head + b"".join(body)


def from_file(file):
    if len(file) < HEAD.size:
        raise Problem(f"a file of {len(file)} bytes is too short for a head")
    *numbers, along, down, runs, starts = HEAD.unpack_from(file)
    width, height, storeys, ticks = map(in_range, ("width", "height", "storeys", "ticks"), numbers)
    size = in_range("cells", width * height * storeys)
    ground = pair("ground", f"{along}:{down}")
    behind_runs = HEAD.size + RUN.size * runs
    if len(file) != behind_runs + START.size * starts:
        raise Problem("the file is not as long as its head says")
    slow, end = [ground] * size, 0
    for place, (offset, length, along, down) in enumerate(RUN.iter_unpack(file[HEAD.size:behind_runs])):
        if offset < end:
            raise Problem(f"run {place}, counted from 0, begins before the end of the one before")
        end = offset + length
        if end > size:
            raise Problem(f"run {place}, counted from 0, passes the board's end")
        slow[offset:end] = [pair("slowness", f"{along}:{down}")] * length
    begins = begins_of(list(START.iter_unpack(file[behind_runs:])), size)
    return Board(width, height, storeys, ticks, ground, slow, begins)


def begins_of(records, size):
    """Start times by cell. As in the library each cause looks at the whole list."""
    for place, (cell, _) in enumerate(records):
        if cell >= size:
            raise Problem(f"start {place}, counted from 0, is off the board")
    for place in range(1, len(records)):
        if records[place][0] <= records[place - 1][0]:
            raise Problem(f"start {place}, counted from 0, is not above the one before")
    return {cell: in_range("start time", time) for cell, time in records}


def letters_for(board):
    """A letter for each slowness: `.` for the ground, `#` for walls; none where there are too many."""
    others = sorted(set(board.slow) - {WALL, board.ground})
    if len(others) > len(LETTERS):
        return None
    return {board.ground: ".", WALL: "#", **dict(zip(others, LETTERS))}


def to_text(board):
    lines = [f"ticks {board.ticks}", f"ground {word_for(board.ground)}"]
    letters = letters_for(board)
    for cell, time in sorted(board.starts.items()):
        storey, row = divmod(cell // board.width, board.height)
        lines.append(f"start {cell % board.width} {row} {time}" + (f" storey {storey}" if storey else ""))
    if letters is None:
        lines.append("map numbers")
        between, drawn = " ", word_for
    else:
        lines += [f"{letters[slow]} = {word_for(slow)}" for slow in sorted(set(board.slow))]
        lines.append("map")
        between, drawn = "", letters.get
    for row in range(board.height * board.storeys):
        storey, first = divmod(row, board.height)
        if storey and first == 0:
            lines.append(f"storey {storey}")
        cells = board.slow[row * board.width:(row + 1) * board.width]
        lines.append(between.join(drawn(slow) for slow in cells))
    return "\n".join(lines) + "\n"


def made(arguments):
    """The bytes that the script prints."""
    if arguments == ["--help"]:
        return __doc__.encode()
    if arguments not in (["file"], ["text"]):
        raise Problem("say `file` for a file from a map, `text` for a map from a file, or `--help`")
    with open(0, "rb", closefd=False) as given:
        data = given.read()
    if arguments == ["text"]:
        return to_text(from_file(data)).encode()
    return to_file(from_text(data.decode("utf-8-sig", "replace")))


def main(arguments):
    try:
        with open(1, "wb", closefd=False) as out:
            out.write(made(arguments))
    except BrokenPipeError:
        sys.exit(1)  # whoever reads has had enough
    except (Problem, OSError) as problem:
        sys.exit(f"map.py: {problem}")


if __name__ == "__main__":
    main(sys.argv[1:])
