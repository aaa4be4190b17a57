"""Writes the logs 0.log and so on of a play, and its script, which takes and ends each record, for bench/plays."""
import functools
import random
import struct

from spelling import crc32c, varint

EVERY = 1000


def record(delta):
    key, value = b"key %03d" % delta, b"value %03d" % delta
    body = b"\0\0" + varint(delta) + varint(len(key)) + key + varint(len(value)) + value + b"\0"
    return varint(len(body)) + body


# The crc of a batch does not cover its base offset, so that all batches of so many records end alike.
@functools.cache
def batch_end(count):
    covered = struct.pack(">hiqqqhii", 0, count - 1, 0, 0, -1, -1, -1, count)
    covered += b"".join(record(delta) for delta in range(count))
    return struct.pack(">iibI", 9 + len(covered), 0, 2, crc32c(covered)) + covered


def write_logs(folder, counts, size):
    """Writes a log of so many records for each count, in batches of at most size records, and returns the names."""
    names = [f"{folder}/{part}.log" for part in range(len(counts))]
    for name, count in zip(names, counts):
        with open(name, "wb") as log:
            for base in range(0, count, size):
                log.write(struct.pack(">q", base) + batch_end(min(size, count - base)))
    return names


def assigned(counts):
    for part, count in enumerate(counts):
        yield f"assign {part}"
        yield f"poll {part} {count}"


def a_thousand_at_a_time(counts):
    """One part: a thousand records are polled, taken, ended in order and committed, and so on."""
    yield "assign 0"
    for first in range(1, counts[0] + 1, EVERY):
        tickets = range(first, min(first + EVERY, counts[0] + 1))
        yield f"poll 0 {len(tickets)}"
        yield from (f"take {ticket % 256}" for ticket in tickets)
        yield from (f"end {ticket}" for ticket in tickets)
        yield "commit 0"


def all_at_once(counts):
    """All records are polled first, and then taken and ended one by one, with a commit of a part after each thousand."""
    yield from assigned(counts)
    for ticket in range(1, sum(counts) + 1):
        yield f"take {ticket % 256}"
        yield f"end {ticket}"
        if ticket % EVERY == 0:
            yield f"commit {ticket // EVERY % len(counts)}"


def a_thousand_out(counts):
    """All records are polled first, a thousand are out, and a drawn one ends; so their ends are far from in order.

    In the middle each part is committed and there is a crash, so that what is done does not run again, and what was out runs again.
    """
    draw = random.Random(1)
    left, crash_at, ended, ticket, out = sum(counts), sum(counts) // 2, 0, 0, []
    yield from assigned(counts)
    while left or out:
        while left and len(out) < EVERY:
            ticket, left = ticket + 1, left - 1
            out.append(ticket)
            yield f"take {ticket % 256}"
        at = draw.randrange(len(out))
        out[at], out[-1] = out[-1], out[at]
        yield f"end {out.pop()}"
        ended += 1
        if ended % EVERY == 0:
            yield f"commit {ended // EVERY % len(counts)}"
        if ended == crash_at:
            yield from (f"commit {part}" for part in range(len(counts)))
            yield "crash"
            yield from assigned(counts)
            yield from (f"end {late}" for late in out)
            left, out = left + len(out), []
    yield from (f"commit {part}" for part in range(len(counts)))


def polled(counts):
    """All records are polled, and none is taken."""
    return assigned(counts)


def write_play(folder, lines, records, parts, size):
    """Writes the logs and the script, and returns the names of the files and how many lines the script has."""
    counts = [records // parts + (part < records % parts) for part in range(parts)]
    names, count = write_logs(folder, counts, size), 0
    with open(f"{folder}/script", "w") as script:
        for count, line in enumerate(lines(counts), 1):
            script.write(line + "\n")
    return [*names, f"{folder}/script"], count
