"""Writes house files and runs the program on them; the examples and the pictures are made with it.
The program is target/bin/lineage, or what LINEAGE_PROGRAM names."""

import os
import subprocess
import sys

ROOT = os.path.join(os.path.dirname(os.path.abspath(__file__)), "..")


def field(tag, value):
    """Tag, two bytes of length, and the value."""
    return bytes([tag]) + len(value).to_bytes(2, "big") + value


def pack(row):
    """The bytes of a row of parentheses: bit i is in byte i/8 and has weight 2^(i mod 8) there."""
    packed = bytearray((len(row) + 7) // 8)
    for i, sign in enumerate(row):
        packed[i // 8] |= (sign == "(") << (i % 8)
    return bytes(packed)


def bits(m):
    return field(1, m.to_bytes(4, "big"))


def word(row):
    """The fields of a whole word; the empty one has no stretch."""
    return bits(len(row)) + (field(2, pack(row)) if row else b"")


def question(kind, a, b=0):
    return field(3, b"".join(number.to_bytes(4, "big") for number in (kind, a, b)))


def program():
    return os.environ.get("LINEAGE_PROGRAM") or os.path.join(ROOT, "target/bin/lineage")


def printed(file):
    """What the program prints for a house file."""
    if not os.path.exists(program()):
        sys.exit(f"no program at {program()}: make it with `tools/build program`, or name it in LINEAGE_PROGRAM")
    return subprocess.run([program()], input=file, stdout=subprocess.PIPE, timeout=10, check=False).stdout.decode()


def answers(row, questions):
    """Code, result and reads of each question about a row; up to 1,024 of them go into one file."""
    lines = []
    for start in range(0, len(questions), 1024):
        part = questions[start:start + 1024]
        lines += printed(word(row) + b"".join(question(*asked) for asked in part)).splitlines()
    if len(lines) != len(questions):
        sys.exit(f"{len(questions)} questions, but the program printed {lines[:1]}")
    return [tuple(int(number) for number in line.split(" ")) for line in lines]
