#!/usr/bin/env python3
"""Writes a log of at least so many bytes: batches of 500 records of about 100 bytes.

The crc of a batch does not cover its base offset, so that all batches have the same crc.
"""
import struct
import sys

from spelling import crc32c, varint

RECORDS = 500


def record(delta):
    key = b"key %05d" % (delta * 7919 % 50000)
    value = b"value %05d " % delta + bytes((delta * 31 + i * 17) % 256 for i in range(66))
    header = varint(5) + b"trace" + varint(3) + b"%03d" % (delta % 1000)
    body = b"\0" + varint(delta * 3) + varint(delta) + varint(len(key)) + key
    body += varint(len(value)) + value + varint(1) + header
    return varint(len(body)) + body


def batch():
    covered = struct.pack(">hiqqqhii", 0, RECORDS - 1, 1700000000000, 1700000001497, -1, -1, -1, RECORDS)
    covered += b"".join(record(delta) for delta in range(RECORDS))
    return struct.pack(">iibI", 9 + len(covered), 0, 2, crc32c(covered)) + covered


def main():
    name, size = sys.argv[1], int(sys.argv[2])
    behind = batch()
    with open(name, "wb") as log:
        base = 0
        while log.tell() < size:
            log.write(struct.pack(">q", base) + behind)
            base += RECORDS
    print("batches", base // RECORDS, "bytes of each", 8 + len(behind))


main()
