#!/usr/bin/env python3
"""The frames of requests are what python3-kafka encodes.

Encodes the requests of evidence/show_frames.txt with the protocol classes of the module kafka, and compares each with
the line that the program shows.
"""
import struct
import subprocess
import sys

import kafka
from kafka.protocol.api import RequestHeader
from kafka.protocol.commit import OffsetCommitRequest, OffsetFetchRequest


def commit(correlation, client, *fields):
    return framed(OffsetCommitRequest[2](*fields), correlation, client)


def fetch(correlation, client, *fields):
    return framed(OffsetFetchRequest[1](*fields), correlation, client)


def framed(request, correlation, client):
    header = RequestHeader(request, correlation_id=correlation, client_id=client)
    body = header.encode() + request.encode()
    return (struct.pack(">i", len(body)) + body).hex()


EXPECTED = [
    commit(1, "pc", "g", 1, "", -1, [("t", [(0, 10, "")])]),
    commit(2**31 - 1, "pc", "parcon", -1, "", -1, [("log", [(1023, 2**63 - 1, "bAACAg==")])]),
    commit(-5, None, "group", 3, "member-0", 86400000,
           [("first", [(0, 0, None), (2, 2**32, "a b")]), ("none", []), ("second", [(7, 1, "\u00e9")])]),
    fetch(2, "pc", "g", [("t", [0])]),
    fetch(0, None, "group", [("first", [3, 1, 2]), ("none", [])]),
]


def main():
    shown = subprocess.run([sys.argv[1]], check=True, capture_output=True, text=True).stdout.split()
    assert shown == EXPECTED, "\n".join(["shown:"] + shown + ["expected:"] + EXPECTED)
    print("evidence: kafka %s: %d frames, %d bytes, are what it encodes"
          % (kafka.__version__, len(shown), sum(len(line) for line in shown) // 2))


if __name__ == "__main__":
    main()
