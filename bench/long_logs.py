"""Orderly logs of many entries, of docs/log-format.md."""

import struct

LIMIT = 10**12
DISTANCE = 4096  # moves from one poll to the next


def poll(count, ordinal):
    return struct.pack("<BQIQB", 3, count, ordinal, 0, 0)


def gain(count, number, waits):
    """A gain of page 0 in write, and the yields that it waits for, each a hart and a count."""
    head = struct.pack("<BQHIBB", 1, count, 0, number, 2, len(waits))
    return head + b"".join(struct.pack("<BQ", hart, at) for hart, at in waits)


def give_up(count, number):
    return struct.pack("<BQHIB", 2, count, 0, number, 0)


def end(count):
    return struct.pack("<BQ", 5, count)


def polled(entries):
    """A hart that is polled again and again."""
    yield from (poll(DISTANCE * at, at) for at in range(entries - 1))
    yield end(DISTANCE * (entries - 2) + 1)


def handed_over(hart, turns):
    """One of two harts: at each count it yields the page, and gains it again behind the other's yield."""
    for at in range(turns):
        if at % DISTANCE == 0:
            yield poll(at, 2 * (at // DISTANCE) + hart)
        if at > 0:
            yield give_up(at, 4 * (at - 1) + 2 * hart + 1)
        number = 4 * at + 2 * hart
        yield gain(at, number, [(1 - hart, at + hart)] if number else [])
    yield give_up(turns, 4 * (turns - 1) + 2 * hart + 1)
    yield end(turns)


def write_log(file, streams, start=bytes(32)):
    """A log that was full, of a board with one page and an image with this digest; each stream is a call that gives its
    entries."""
    with file.open("wb") as out:
        out.write(b"RVTL" + struct.pack("<BBHQ", 1, len(streams), 1, LIMIT) + start)
        for stream in streams:
            out.write(struct.pack("<I", sum(1 for _ in stream())))
            for entry in stream():
                out.write(entry)
        out.write(b"\x03")
