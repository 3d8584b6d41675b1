#!/usr/bin/env python3
"""Published figures, and a library that is not ours, against the host program.

Usage: vectors.py HOST     where HOST is the built host program (host/main.c over libcard.a).

The vectors are CRC-7/MMC as published for MMC and SD commands, the trace
messages that follow from them, the pointer words of the paper's table, and the
rule of three bits in four for NDF. crcmod (Debian's python3-crcmod) works out
the same polynomial for the trace 03E5 and for messages made at random. The seed
is fixed.
"""
import random
import subprocess
import sys

import crcmod

failed = []


def ask(host, lines):
    """The host's answers, one for each line."""
    done = subprocess.run([host], input="".join(l + "\n" for l in lines), capture_output=True, text=True, check=True)
    answers = done.stdout.splitlines()
    if len(answers) != len(lines):
        sys.exit(f"vectors: {len(lines)} lines asked, {len(answers)} answered")
    return answers


def expect(host, pairs, what):
    """Asks each line and compares; says what differs."""
    answers = ask(host, [line for line, _ in pairs])
    wrong = [(l, w, a) for (l, w), a in zip(pairs, answers) if w != a]
    for line, want, got in wrong[:10]:
        print(f"vectors: {what}: {line}\n    should be {want}\n    but is    {got}")
    failed.extend(wrong)
    print(f"vectors: {what}: {len(pairs) - len(wrong)} of {len(pairs)}")


# CRC-7/MMC, x^7 + x^3 + 1, start 0: bytes and published check
CRC7 = [
    ("313233343536373839", 0x75),  # "123456789"
    ("4000000000", 0x4A),  # CMD0, sent as 95
    ("5100000000", 0x2A),  # CMD17, sent as 55
    ("1100000900", 0x33),  # answer to CMD17, sent as 67
    ("48000001AA", 0x43),  # CMD8, sent as 87
    ("7700000000", 0x32),  # CMD55, sent as 65
    ("6940000000", 0x3B),  # ACMD41, sent as 77
]

# messages that must be accepted: start byte, then 15 bytes
MESSAGES = [
    "FC000000000000313233343536373839",
    "C3000000000000000000004000000000",
    "A3000000000000000000005100000000",
    "BA000000000000000000001100000900",
    "BB000000000000000000007700000000",
    "B2000000000000000000006940000000",
]

# start bytes that wrong readings of the check give the trace 03E5
WRONG = ["82", "E5", "E8", "0B"]

# (value, its word, the word of an increment, the word of a decrement)
WORDS = [(0, 0x6800, 0x6AAA, 0x6955), (1, 0x6801, 0x6AAB, 0x6954), (782, 0x6B0E, 0x69A4, 0x6A5B)]


def check_vectors(host):
    expect(host, [(f"check {m}", "check 1") for m in MESSAGES], "published messages accepted")
    # leading bytes 00 change no remainder, and 80 in front of 15 bytes adds 09
    made = []
    for data, value in CRC7:
        raw = bytes.fromhex(data)
        if max(raw) < 0x80:
            body = bytes(15 - len(raw)) + raw
            made.append((bytes([0x80 | value ^ 0x09]) + body).hex().upper())
    if sorted(made) != sorted(MESSAGES):
        sys.exit(f"vectors: the messages above are not those of the published checks: {made}")
    space = "20" * 11
    trace = "03E5".encode().hex().upper() + space
    expect(host, [(f"check {w}{trace}", "check 0") for w in WRONG], "wrong readings of the check refused")


def by_crcmod(host):
    """Messages made at random, their check by crcmod: accepted as they are, refused with any one bit inverted, cut or longer."""
    random.seed(7)
    # crcmod wants a width of 8 or more: x^7 + x^3 + 1 times x, on the top seven bits
    crc8 = crcmod.mkCrcFun(0x112, initCrc=0, rev=False)
    if crc8(b"123456789") >> 1 != 0x75:
        sys.exit("vectors: crcmod does not give the published check value")
    good, bad = [], []
    for round in range(400):
        body = b"03E5           " if round == 0 else bytes(random.randrange(0x80) for _ in range(15))
        message = bytes([0x80 | crc8(b"\x80" + body) >> 1]) + body
        good.append((f"check {message.hex().upper()}", "check 1"))
        for bit in range(128):
            damaged = bytearray(message)
            damaged[bit // 8] ^= 1 << bit % 8
            bad.append((f"check {damaged.hex().upper()}", "check 0"))
        bad.append((f"check {message[:-1].hex().upper()}", "check 0"))
        bad.append((f"check {message.hex().upper()}00", "check 0"))
    expect(host, good, "messages checked by crcmod accepted")
    expect(host, bad, "the same with one bit inverted, cut or longer refused")


def by_majority(host):
    """All words: NDF by the rule of three bits in four, SS and value by their places."""

    def kind(code):
        def agree(pattern):
            return 4 - bin(code ^ pattern).count("1")

        return 1 if agree(0b0110) >= 3 else 2 if agree(0b1001) >= 3 else 0

    pairs = [(f"read {w:04X}", f"read {4096 * kind(w >> 12) + (w & 0x0C00) + (w & 0x03FF)}") for w in range(65536)]
    expect(host, pairs, "every word by the rule of three bits in four")
    table = [(f"read {w:04X}", f"read {4096 + 2048 + v}") for v, w, _, _ in WORDS]
    table += [(f"read {up:04X}", f"read {4096 + 2048 + (v ^ 0x2AA)}") for v, _, up, _ in WORDS]
    table += [(f"read {down:04X}", f"read {4096 + 2048 + (v ^ 0x155)}") for v, _, _, down in WORDS]
    expect(host, table, "words of values and of adjustments")


def settings(host):
    """Order forms: every label, every character at every place and before another, every number of characters up to 20; the worked table."""
    trace = b"03E5".ljust(15)

    def line(label, characters):
        return f"settings {label:02X}{characters.hex().upper()}"

    def printable(character):
        return chr(character).isascii() and chr(character).isprintable()

    def at(place, character, of=trace):
        return of[: place - 1] + bytes([character]) + of[place:]

    pairs = [(line(label, trace), f"settings {4 if label in (0x00, 0xFF) else 0} 0") for label in range(256)]
    for character in range(256):
        wrong = 5 if character < ord(" ") else 20
        for place in range(1, 16):
            said = "0 0" if printable(character) else f"{wrong} {place}"
            pairs.append((line(0x12, at(place, character)), f"settings {said}"))
        # the later of two wrong ones is not named
        said = "5 15" if printable(character) else f"{wrong} 14"
        pairs.append((line(0x12, at(15, 0x00, at(14, character))), f"settings {said}"))
        pairs.append((line(0xFF, at(15, character)), "settings 4 0"))
    for n in range(21):
        pairs.append((line(0x12, b"0" * n), f"settings {0 if n == 15 else 5} 0"))
        pairs.append((line(0x00, b"0" * n), "settings 4 0"))
    spaces = b" " * 15
    pairs.append((line(0x12, at(3, 0x1F, at(2, 0x80))), "settings 20 2"))
    pairs.append((line(0x12, spaces), "settings 21 0"))
    pairs.append((line(0x12, at(15, 0x7F, spaces)), "settings 20 15"))
    pairs.append((line(0x12, at(15, 0x00, spaces)), "settings 5 15"))
    pairs += [(line(0x12, at(place, ord("!"), spaces)), "settings 0 0") for place in range(1, 16)]
    expect(host, pairs, "labels and traces checked before any call")


def odd(host):
    """Odd lengths and lines that are not understood."""
    expect(
        host,
        [
            ("parity ", "parity 00"),
            ("parity", "parity 00"),
            ("check ", "check 0"),
            ("read ", "read 0"),
            ("read 68", "read 0"),
            ("read 680000", "read 0"),
            ("parity FF0F", "parity F0"),
            ("parity F", "? 8"),
            ("parity GG", "? 9"),
            ("parities 00", "? 10"),
            ("", "? 11"),
            ("parity 0\0", "? 12"),
            ("parity " + "00" * 4096, "parity 00"),
            ("parity " + "00" * 4097, "? 14"),
            ("read 6800", "read 6144"),
            ("settings", "? 16"),
        ],
        "odd lengths and odd lines",
    )


def main():
    if len(sys.argv) != 2:
        sys.exit(__doc__)
    host = sys.argv[1]
    check_vectors(host)
    by_crcmod(host)
    by_majority(host)
    settings(host)
    odd(host)
    if failed:
        sys.exit(f"vectors: {len(failed)} differ")
    print("vectors: all as published")


if __name__ == "__main__":
    main()
