#!/usr/bin/env python3
"""Checks the digests of a session answer file with Python's hashlib, and with NIST's published list.

    digests.py REQUESTS ANSWERS [RSP]

Looked at: every accepted finish and one-shot whose message began at a fresh hasher and that was not mitigated; its
digest is then plain SHA-1. (`collision` leaves the digest as it is.)
"""
import hashlib, struct, sys

START = bytes.fromhex("67452301efcdab8998badcfe10325476c3d2e1f0") + bytes(64 + 24)
HASHER = 20 + 64 + 48  # the bytes of a hasher
ANSWER = 1 + 4 + 32  # and those before it in an answer


def records(data):
    at = 0
    while at < len(data):
        kind, length = struct.unpack_from(">BI", data, at)
        yield kind, data[at + 5:at + 5 + length]
        at += 5 + length


def published(name):
    """NIST's messages and digests."""
    found, bits, message = {}, 0, b""
    for line in open(name):
        key, _, value = line.strip().partition(" = ")
        if key == "Len":
            bits = int(value)
        elif key == "Msg":
            message = bytes.fromhex(value)[:bits // 8]
        elif key == "MD":
            found[message] = bytes.fromhex(value)
    return found


def finishes(body, answer):
    """Message and digest of each finish that should be plain SHA-1."""
    message = b"" if body[:len(START)] == START else None
    at, back = HASHER, 0
    while at < len(body):
        call = body[at]
        at += 1
        piece = b""
        if call != 2:
            at += 8
            if call == 1:
                n, = struct.unpack_from(">I", body, at)
                piece = body[at + 4:at + 4 + n]
                at += 4 + n
            n, = struct.unpack_from(">I", body, at)
            at += 4 + 4 * n
        if call == 4:
            at += 5
        known, refusal, _, verdict = struct.unpack_from(">BIQQ", answer, back)
        back += ANSWER + HASHER + 4
        n, = struct.unpack_from(">I", answer, back - 4)
        out = answer[back:back + n]
        back += n
        if not known or refusal:
            continue
        if call >= 3 and message is not None and verdict != 2:
            yield message, out
        if call == 1 and message is not None:
            message += piece
        if call in (2, 4):
            message = b""


def main():
    requests, answers = (open(name, "rb").read() for name in sys.argv[1:3])
    nist = published(sys.argv[3]) if len(sys.argv) > 3 else {}
    compared = differ = in_list = 0
    replies = records(answers)
    for kind, body in records(requests):
        if kind == 1:
            continue
        same_kind, answer = next(replies)
        assert kind == same_kind
        if kind == 3:
            plain = list(finishes(body, answer))
        elif kind == 4:
            n, = struct.unpack_from(">I", body, 4)
            known, refusal, _, verdict = struct.unpack_from(">BIQQ", answer, 0)
            plain = [(body[8:8 + n], answer[ANSWER:])] if known and not refusal and verdict != 2 else []
        else:
            continue
        for message, digest in plain:
            compared += 1
            in_list += message in nist
            wanted = nist.get(message, hashlib.sha1(message).digest())
            if digest != wanted or hashlib.sha1(message).digest() != wanted:
                differ += 1
                if differ < 6:
                    print(f"  {message.hex()[:200]}: {digest.hex()}, not {wanted.hex()}")
    if in_list:
        print(f"  of these, messages in the published list: {in_list}")
    print(f"{compared} comparisons, {differ} differences")
    sys.exit(differ != 0)


main()
