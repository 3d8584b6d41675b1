#!/usr/bin/env python3
"""The listing program against the second program, file by file.

Usage: listing.py LIST SECOND     the built listing program, and the built second program.

Each file of tests/catalogues is read as it is written there, fed to both, and
their output compared byte for byte. A file named refused-NN.. must be refused
with NN, one named good-.. must be listed; every refusal of a catalogue must be
among them, and those that name two places must be said whole in their file, in a
comment `# prints NN place..`, with two that differ. Longer files, up to and past
the longest catalogue, are made here.
"""
import os
import pathlib
import re
import subprocess
import sys
import time

LONGEST = 512 * 21
REFUSALS = {4, 5, 9, 10, 11, 12, 13, 20, 21}
TWO_PLACES = {5, 13, 20}


def catalogue(text):
    """The bytes of a catalogue written out: hex digits, |characters| as they stand, `#` to the end of a line left out."""
    data = b""
    for line in text.splitlines():
        if line.startswith("#"):
            continue
        for hexes, characters in re.findall(r"([0-9A-F]+)|\|([^|]*)\|", line):
            data += bytes.fromhex(hexes) if hexes else characters.encode("ascii")
        if re.sub(r"[0-9A-F ]|\|[^|]*\|", "", line):
            sys.exit(f"listing: a catalogue's line is not understood: {line}")
    return data


def said_whole(text):
    """The line that the file says it prints; none where it says nothing."""
    found = re.search(r"^# prints (\d+(?: \d+)*)$", text, re.MULTILINE)
    return found and found.group(1).encode()


def record(k):
    return b"\x5a\x4d" + k.to_bytes(2, "big") + b"\x12" + f"LINE {k:04d}      ".encode() + b"\x0f"


def run(command, data):
    done = subprocess.run(command, input=data, capture_output=True, timeout=60)
    if done.returncode != 0:
        sys.exit(f"listing: {command[0]} ended with {done.returncode}: {done.stderr.decode(errors='replace')}")
    return done.stdout


def streams(listing):
    """Input in pieces is one file; help, and what cannot be read or written, is said on standard error, and nothing is listed."""
    failed = 0
    slow = subprocess.Popen(listing, stdin=subprocess.PIPE, stdout=subprocess.PIPE)
    for piece in (record(1)[:7], record(1)[7:] + record(2)[:1], record(2)[1:]):
        slow.stdin.write(piece)
        slow.stdin.flush()
        time.sleep(0.05)
    text = slow.communicate(timeout=60)[0]
    if text != run(listing, record(1) + record(2)):
        failed += 1
        print(f"listing: a file that comes in pieces is listed as {text!r}")
    folder = os.open("/", os.O_RDONLY)
    unread = subprocess.run(listing, stdin=folder, capture_output=True, timeout=60)
    os.close(folder)
    if unread.stdout or unread.stderr != b"list: standard input cannot be read\n":
        failed += 1
        print(f"listing: of what cannot be read it says {unread.stdout!r}, {unread.stderr!r}")
    asked = subprocess.run(listing + ["--help"], stdin=subprocess.DEVNULL, capture_output=True, timeout=60)
    if asked.stdout or not asked.stderr.startswith(b"usage: list < CATALOGUE\n"):
        failed += 1
        print(f"listing: asked for help it says {asked.stdout!r}, {asked.stderr!r}")
    with open("/dev/full", "wb") as full:
        unwritten = subprocess.run(listing, input=record(1), stdout=full, stderr=subprocess.PIPE, timeout=60)
    if unwritten.stderr != b"list: standard output cannot be written\n":
        failed += 1
        print(f"listing: where nothing can be written it says {unwritten.stderr!r}")
    return failed


def main():
    if len(sys.argv) != 3:
        sys.exit(__doc__)
    listing, second = [sys.argv[1]], [sys.argv[2], "list"]
    here = pathlib.Path(__file__).parent
    texts = {p.stem: p.read_text() for p in sorted((here / "catalogues").glob("*.txt"))}
    cases = [(name, catalogue(text)) for name, text in texts.items()]
    cases.append(("good-shelf", (here.parent / "examples" / "shelf.cat").read_bytes()))
    longest = b"".join(record(k) for k in range(1, 513))
    cases.append(("good-512-records", longest))
    cases.append(("refused-09-513-records", longest + record(513)))
    cases.append(("refused-09-one-byte-more", longest + b"\x5a"))
    cases.append(("refused-09-far-longer", longest * 5))
    cases.append(("refused-13-at-the-ends", longest[: LONGEST - 21] + record(1)))
    cases.append(("refused-10-in-the-last", longest[: LONGEST - 21] + b"\0" * 21))
    cases += [(f"refused-09-cut-{n}", longest[:n]) for n in (1, 2, 20, 22, 41, LONGEST - 1)]

    failed, met, two = 0, set(), set()
    for name, data in cases:
        ours, theirs = run(listing, data), run(second, data)
        said = re.match(r"(?:good|refused-(\d\d))-?", name).group(1)
        first = ours.split(b"\n")[0]
        number, *places = first.split(b" ")
        right = first == b"circuit label trace flags" if said is None else number == str(int(said)).encode()
        whole = said_whole(texts.get(name, ""))
        right = right and whole in (None, first)
        met.add(int(said) if said else 0)
        if whole and len(places) == 2 and places[0] != places[1]:
            two.add(int(number))
        if ours != theirs or not right:
            failed += 1
            print(f"listing: {name} differs:\n  program {ours[:400]!r}\n  second  {theirs[:400]!r}\n  input   {data[:200].hex()}")
    failed += streams(listing)
    for what, missing in (("no file", ({0} | REFUSALS) - met), ("no file that says two places", TWO_PLACES - two)):
        if missing:
            failed += 1
            print(f"listing: {what} for the refusals {sorted(missing)}")
    print(f"listing: {len(cases)} files, {failed} differ")
    sys.exit(1 if failed else 0)


if __name__ == "__main__":
    main()
