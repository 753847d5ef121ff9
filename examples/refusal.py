#!/usr/bin/env python3
"""Says a refusal number in words.

    python3 refusal.py 9
    rings < maze.scenario | python3 refusal.py

With a number it prints what the number says. Without one it passes on the lines of `rings`, which has no exit status of
its own: behind `refused 9` it puts the words, and ends with the status 1.
"""

import pathlib
import re
import sys


def table():
    """The words by number, from refusals.h, which stands beside the script."""
    text = pathlib.Path(__file__).with_name("refusals.h").read_text()
    entries = re.findall(r'\[(\d+)\] = ((?:"[^"]*"\s*)+)', text)
    return {int(number): "".join(re.findall('"([^"]*)"', literals)) for number, literals in entries}


def with_words(number):
    words = table()
    if not re.fullmatch("[0-9]{1,4}", number) or int(number) not in words:
        sys.exit(f"refusal.py: `{number[:20]}` is not a number of the refusal table")
    return f"{number}: {words[int(number)]}\n".encode()


def passed_on():
    """The lines of `rings`, and a status."""
    with open(0, "rb", closefd=False) as given:
        lines = given.read()
    if not lines:
        sys.exit("refusal.py: nothing came in")
    refused = re.fullmatch(b"refused ([0-9]+)\n", lines)
    return (b"refused " + with_words(refused[1].decode()), 1) if refused else (lines, 0)


def main(arguments):
    if len(arguments) > 1:
        sys.exit("refusal.py: say one number, `--help`, or nothing")
    try:
        if not arguments:
            lines, status = passed_on()
        else:
            lines, status = __doc__.encode() if arguments == ["--help"] else with_words(arguments[0]), 0
        with open(1, "wb", closefd=False) as out:
            out.write(lines)
    except BrokenPipeError:
        status = 1  # whoever reads has had enough
    except OSError as problem:
        status = f"refusal.py: {problem}"
    sys.exit(status)


if __name__ == "__main__":
    main(sys.argv[1:])
