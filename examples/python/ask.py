"""ask.py LIBRARY DUMP LINES: opens the dump, and prints the reply to each line of the file LINES.

All lines are asked by one call, since a call from Python takes more time than a reply.
"""

import sys

import sux


def main(library, dump_name, lines_name):
    dump = sux.Dump(sux.load(library), dump_name)
    with open(lines_name, "rb") as file:
        lines = [line.removesuffix(b"\n") for line in file]
    for number in dump.replies(lines):
        print(-1 if number is None else number)


if __name__ == "__main__":
    main(*sys.argv[1:])
