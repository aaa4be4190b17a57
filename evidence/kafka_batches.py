#!/usr/bin/env python3
"""Batches that python3-kafka writes are read as what went in.

Writes a log of several batches with the record batch builder of the module kafka, has it shown by the program of
bench/read_log.txt, and compares each record with what went in, and with what the module itself reads.
"""
import random
import struct
import subprocess
import sys
import tempfile

import kafka
from kafka.record.default_records import DefaultRecordBatch, DefaultRecordBatchBuilder
from kafka.record.util import calc_crc32c

APPEND_TIME = DefaultRecordBatchBuilder.TIMESTAMP_TYPE_MASK
TRANSACTIONAL = DefaultRecordBatchBuilder.TRANSACTIONAL_MASK

# (base offset, attributes that the broker sets, its time, records (delta, time, key, value, headers))
BATCHES = [
    (0, 0, None, [
        (0, 1700000000000, b"a", b"x", []),
        (1, 1700000000001, b"b", b"yy", [("k", b"v")]),
        (2, 1699999999000, b"a", b"zzz", [("k", None), ("", b""), ("long" * 40, bytes(range(256)))]),
    ]),
    (3, 0, None, [
        (0, 0, None, b"no key", []),
        (1, 1, b"no value", None, []),
        (2, 2, None, None, [("only a header", b"here")]),
        (3, 3, b"", b"", []),
    ]),
    (7, APPEND_TIME, 1800000000000, [
        (0, 5, b"all have", b"the time", []),
        (1, 9, b"of the", b"broker", [("h", b"1")]),
    ]),
    (1000, TRANSACTIONAL, None, [(4, 77, b"after a gap", b"in a transaction", [])]),
]


def random_batch(base):
    chosen = random.Random(base)
    records = []
    for delta in sorted(chosen.sample(range(300), 200)):
        key = chosen.choice([None, b"", chosen.randbytes(chosen.randrange(200))])
        value = chosen.choice([None, chosen.randbytes(chosen.randrange(3000))])
        headers = [("h%d" % i, chosen.choice([None, chosen.randbytes(20)])) for i in range(chosen.randrange(4))]
        records.append((delta, chosen.randrange(2**45), key, value, headers))
    return (base, chosen.choice([0, APPEND_TIME]), chosen.randrange(2**45), records)


def written(base, attributes, broker_time, records):
    transactional = bool(attributes & TRANSACTIONAL)
    builder = DefaultRecordBatchBuilder(2, 0, transactional, -1, -1, -1, 1 << 30)
    for delta, time, key, value, headers in records:
        assert builder.append(delta, time, key, value, headers) is not None
    batch = builder.build()
    # A broker sets the base offset, which the crc does not cover, and the kind of time.
    struct.pack_into(">q", batch, 0, base)
    if attributes & APPEND_TIME:
        struct.pack_into(">h", batch, 21, struct.unpack_from(">h", batch, 21)[0] | APPEND_TIME)
        struct.pack_into(">q", batch, 35, broker_time)
        struct.pack_into(">I", batch, 17, calc_crc32c(memoryview(batch)[21:]))
    return bytes(batch)


def text(data):
    return "=-" if data is None else "=" + data.hex()


def line(offset, time, key, value, headers):
    words = [str(offset), str(time), text(key), text(value)]
    for name, data in headers:
        words += [text(name.encode()), text(data)]
    return " ".join(words)


def given(batches):
    for base, attributes, broker_time, records in batches:
        for delta, time, key, value, headers in records:
            yield line(base + delta, broker_time if attributes & APPEND_TIME else time, key, value, headers)


def read_by_kafka(log):
    place = 0
    while place < len(log):
        end = place + 12 + struct.unpack_from(">i", log, place + 8)[0]
        batch = DefaultRecordBatch(log[place:end])
        assert batch.validate_crc()
        for record in batch:
            yield line(record.offset, record.timestamp, record.key, record.value, record.headers)
        place = end


def main():
    batches = BATCHES + [random_batch(base) for base in range(2000, 12000, 1000)]
    log = b"".join(written(*batch) for batch in batches)
    expected = list(given(batches))
    assert list(read_by_kafka(log)) == expected, "the module reads another log than it wrote"
    with tempfile.NamedTemporaryFile() as file:
        file.write(log)
        file.flush()
        shown = subprocess.run([sys.argv[1], "show", file.name], check=True, capture_output=True, text=True)
    found = shown.stdout.splitlines()
    for place, (wanted, got) in enumerate(zip(expected, found)):
        assert wanted == got, "record %d: wanted %s, found %s" % (place, wanted[:200], got[:200])
    assert len(found) == len(expected), "%d records, wanted %d" % (len(found), len(expected))
    print("evidence: kafka %s: %d records of %d batches, %d bytes, read as what went in"
          % (kafka.__version__, len(found), len(batches), len(log)))


main()
