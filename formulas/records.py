"""Records as bytes, by the names of their kinds.

As a program it writes the records that standard input names, one to a line: its kind and what its fields hold, a
negative number being a record so far before this one. "N times" before records with commas between them is all of these
so often. What follows a # is a comment."""

import struct
import sys

RECORD_SIZE = 6
KINDS = ("false", "true", "atom", "diamond", "box", "step", "back", "test", "choice", "sequence", "star")


def record(kind, a=0, b=0):
    """One record; what it has besides its kind and fields is 0."""
    return struct.pack("<BxHH", KINDS.index(kind), a, b).ljust(RECORD_SIZE, b"\0")


def main():
    records = []
    for line in sys.stdin:
        times, _, named = line.split("#")[0].rpartition(" times ")
        for kind, *fields in int(times or 1) * [words.split() for words in named.split(",") if words.strip()]:
            records.append(record(kind, *(v if v >= 0 else len(records) + v for v in map(int, fields))))
    sys.stdout.buffer.write(b"".join(records))


if __name__ == "__main__":
    main()
