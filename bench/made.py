#!/usr/bin/env python3
"""A made record and what its history comes to, by the rules of docs/FORMATS.md alone; it shares nothing with the program.

made.py SEED COUNT      the four lines that `bay_tool load SEED COUNT` has to write

A made record has one block with a buffer of 200 octets, whose events each leave an entry, and one client, which takes. An entry has 24
octets, and for its member 4 and the member's Data. The buffer has the newest entries that fit. A take gives the entry after the one that
was reported last, or the oldest in the buffer where that one is no longer there; then the report is marked.
"""
import sys

CAPACITY = 200
LEAST = 441763200000


def lines_of(seed, count):
    """The drawn lines, each as a word and a value."""
    x, moment = seed, LEAST
    for _ in range(count):
        x = (x * 6364136223846793005 + 1442695040888963407) % 2 ** 64
        s = x // 2 ** 33
        r = s // 8
        if s % 8 <= 3:
            yield "power", r % 1000
        elif s % 8 == 4:
            yield "indication", r % 2 == 1
        elif s % 8 == 5:
            moment += r % 500
            yield "at", moment
        else:
            yield "take", None


def size_of(word, value):
    """The octets of an entry: of the power its integer, of the indication the structure of its value, quality and time."""
    data = 2 + len(value.to_bytes(value.bit_length() // 8 + 1, "big")) if word == "power" else 2 + 3 + 5 + 10
    return 24 + 4 + data


def front_of(sizes):
    """How many of the entries, oldest first, are no longer in the buffer: the others are those that fit, counted from the newest."""
    left, front = CAPACITY, len(sizes)
    while front and sizes[front - 1] <= left:
        front -= 1
        left -= sizes[front]
    return front


def summary_of(seed, count):
    """How many steps the record has, how many reports its takes gave, and how many of these are marked."""
    values = {"power": 0, "indication": False}
    sizes, reported = [], 0  # the sizes of all entries so far; the number of the entry that was reported last
    steps, reports, marked = 2, 0, 0  # the client opens its association, and enables the block
    for word, value in lines_of(seed, count):
        if word == "at":
            continue
        steps += 1
        if word == "take":
            front = front_of(sizes)
            entry = max(reported, front) + 1
            if entry <= len(sizes):
                reports += 1
                marked += reported < front
                reported = entry
        elif values[word] != value:
            values[word] = value
            sizes.append(size_of(word, value))
    return steps, reports, marked


def text_of(summary):
    return "steps %d\nreports %d\nmarked %d\nend\n" % summary


def main():
    if len(sys.argv) != 3:
        sys.exit(__doc__)
    sys.stdout.write(text_of(summary_of(int(sys.argv[1]), int(sys.argv[2]))))


if __name__ == "__main__":
    main()
