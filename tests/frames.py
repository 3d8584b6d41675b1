#!/usr/bin/env python3
"""Wireshark as a reader of the units that the proved sources write.

Usage: frames.py FRAMES     the built program of tests/frames.rs; tshark must be there.

For some offsets FRAMES writes a few hundred units with adjustments among them.
They are put into STM-1 frames, as tools/pcap.py does it, and tshark's SDH
dissector, which is not ours, finds H1, H2, the pointer value and J1 in each
frame. What it found is compared with what the rules say of that unit, worked
out here from the starting offset and from what FRAMES asked for, and so is what
FRAMES itself says of the unit.

The dissector reads each word as it stands and knows no adjustments: in an
adjustment unit H1 and H2 are compared, value and J1 are not. For values from
522 up it looks for J1 in rows 1 to 3 of the same frame, which hold the unit
before: there it finds the J1 that stands in the unit before, be that one an
adjustment unit or not.
"""
import os
import subprocess
import sys
import tempfile

# the frames are made in one place
sys.dont_write_bytecode = True
sys.path.insert(0, os.path.join(os.path.dirname(os.path.dirname(os.path.abspath(__file__))), "tools"))
import pcap

COUNT = 300
# Offset, seed and trace of each run. Any two characters of the second trace differ.
RUNS = [
    (0, 1, b"03E5           "),
    (1, 2, b"03E5 KLMNOPQRST"),
    (400, 3, b"03E5           "),
    (521, 4, b"03E5 KLMNOPQRST"),
    (522, 5, b"03E5           "),
    (782, 6, b"03E5 KLMNOPQRST"),
]
# Steps of the offset that must be among those of all runs.
STEPS = {(0, 1), (1, 0), (400, 401), (401, 400), (521, 520), (520, 521), (521, 522), (522, 521), (782, 0), (0, 782)}
SHOWN = 8

CONTAINER, VALUES = 2349, 783
# From this value on the dissector looks for J1 in the unit before.
IN_THE_ONE_BEFORE = 522
# A unit's first place that carries container bytes, and the bits of the word that are inverted.
ASKED = {"plain": (9, 0), "increment": (12, 0b1010101010), "decrement": (6, 0b0101010101)}
STEP = {"plain": 0, "increment": 1, "decrement": -1}

FIELDS = ["frame.number", "sdh.h1", "sdh.h2", "sdh.au", "sdh.j1"]


def stop(text):
    sys.exit(f"frames: {text}")


def run(command, **more):
    try:
        done = subprocess.run(command, capture_output=True, timeout=60, **more)
    except (OSError, subprocess.TimeoutExpired) as fault:
        stop(f"{command[0]} cannot be run: {fault}")
    if done.returncode != 0:
        stop(f"{command[0]} ended with {done.returncode}: {done.stderr.decode(errors='replace')}")
    return done.stdout.decode("ascii")


def message(trace):
    """The 16 bytes that J1 carries in turn: x^7 + x^3 + 1 is 89 hex."""
    rest = int.from_bytes(b"\x80" + trace, "big") << 7
    for bit in range(134, 6, -1):
        if rest >> bit & 1:
            rest ^= 0x89 << (bit - 7)
    return bytes([0x80 | rest]) + trace


def units(program, offset, seed, trace):
    """What FRAMES wrote: for each unit what was asked, what it says of the unit, and the bytes; then the containers made."""
    lines = run([program, str(offset), str(COUNT), str(seed), trace.decode()]).splitlines()
    if len(lines) != COUNT + 1 or not lines[-1].startswith("containers "):
        stop(f"{program} wrote {len(lines)} lines, the last {lines[-1:]}")
    written = []
    for line in lines[:-1]:
        asked, after, word, ended, data = line.split(" ")
        data = bytes.fromhex(data)
        if asked not in ASKED or len(data) != pcap.UNIT:
            stop(f"{program} wrote a unit of {len(data)} bytes: {line[:80]}")
        written.append((asked, (int(after), int(word, 16), int(ended)), data))
    return written, int(lines[-1].split(" ")[1])


def rules(offset, all_asked):
    """For each unit the offset before, (offset after, word, how many ended), and the place in the unit of each J1 with
    its container's number. Container 0 is the one current at first, and what its units before carried is left out."""
    sent = CONTAINER - 3 * offset if offset else 0
    since = 3
    for asked in all_asked:
        if asked != "plain" and since < 3:
            stop("an adjustment was asked for, and not refused, with fewer than three units since the last")
        since = since + 1 if asked == "plain" else 0
        first, inverted = ASKED[asked]
        word = (0x6800 | offset) ^ inverted
        before, offset = offset, (offset + STEP[asked]) % VALUES
        # The containers stand one behind the other, and the units carry them without a gap.
        sent_after = sent + pcap.UNIT - first
        ended = sent_after // CONTAINER - sent // CONTAINER
        begun = range(-(-sent // CONTAINER), -(-sent_after // CONTAINER))
        places = {first + CONTAINER * number - sent: number for number in begun}
        sent = sent_after
        yield before, (offset, word, ended), places


def number(text):
    """The one number that a field holds; a field that is missing, or there twice, holds none."""
    try:
        return int(text, 0)
    except ValueError:
        return None


def wireshark(frames):
    """H1, H2, pointer value and J1 that tshark finds in each frame."""
    with tempfile.TemporaryDirectory(prefix="frames-") as folder:
        path = os.path.join(folder, "units.pcap")
        with open(path, "wb") as file:
            file.write(pcap.pcap(frames))
        # No one's own settings are read.
        own = {**os.environ, "HOME": folder, "XDG_CONFIG_HOME": folder, "WIRESHARK_CONFIG_DIR": folder, "LC_ALL": "C"}
        command = ["tshark", "-n", "-r", path, "-o", pcap.SETTING, "-T", "fields"]
        for field in FIELDS:
            command += ["-e", field]
        lines = run(command, env=own).splitlines()
    found = [[number(text) for text in line.split("\t")] for line in lines]
    if [line[0] for line in found] != list(range(1, len(frames) + 1)) or any(len(line) != len(FIELDS) for line in found):
        stop(f"tshark gave {len(found)} lines for {len(frames)} frames, the first {lines[:1]}")
    return [tuple(line[1:]) for line in found]


def unit_text(after, word, ended):
    return f"offset {after}, word {word:04X}, ended {ended}"


def read_text(fields):
    """What was read of one frame, or is to be read there."""
    forms = [("H1", "02X"), ("H2", "02X"), ("value", "d"), ("J1", "02X")]
    return ", ".join(
        f"{name} {'none' if value is None else format(value, form)}" for (name, form), value in zip(forms, fields)
    )


def compare(program, offset, seed, trace):
    """One run: how many units, values, J1 and differences, and the steps of the offset."""
    written, made = units(program, offset, seed, trace)
    found = wireshark(list(pcap.stm1([data for _, _, data in written])))
    j1 = message(trace)
    differences, values, read, steps, total, places_before = [], 0, 0, set(), 0, None
    expected = rules(offset, [asked for asked, _, _ in written])
    for k, ((asked, said, _), (before, (after, word, ended), places), seen) in enumerate(zip(written, expected, found)):
        total += ended
        if said != (after, word, ended):
            differences.append(f"unit {k}, {asked}: program: {unit_text(*said)}; rules: {unit_text(after, word, ended)}")
        wanted = (word >> 8, word & 0xFF)
        if asked == "plain":
            # J1 stands at offset 3 times the value, that of container n being byte n of the message.
            values += 1
            wanted += (after,)
            looked_in = places if after < IN_THE_ONE_BEFORE else places_before
            if looked_in is not None:
                read += 1
                wanted += (j1[looked_in[9 + 3 * after] % 16],)
        else:
            steps.add((before, after))
        if seen[: len(wanted)] != wanted:
            differences.append(f"unit {k}, {asked}: tshark: {read_text(seen)}; rules: {read_text(wanted)}")
        places_before = places
    if made != total + 2:
        differences.append(f"{made} containers were made, the rules say {total + 2}")
    for line in differences[:SHOWN]:
        print(f"frames: offset {offset}, seed {seed}: {line}")
    return (len(written), values, read, len(differences)), steps


def main():
    if len(sys.argv) != 2:
        sys.exit(__doc__)
    if message(b"03E5           ")[0] != 0x8B:
        stop("the start byte is worked out wrongly here")
    totals, steps = (0, 0, 0, 0), set()
    for offset, seed, trace in RUNS:
        counts, met = compare(sys.argv[1], offset, seed, trace)
        totals, steps = tuple(map(sum, zip(totals, counts))), steps | met
    units_read, values, read, failed = totals
    if STEPS - steps:
        failed += 1
        print(f"frames: no adjustment from, to: {sorted(STEPS - steps)}")
    print(f"frames: tshark read H1 and H2 of {units_read} units, {values} values and {read} J1; {failed} differ")
    sys.exit(1 if failed else 0)


if __name__ == "__main__":
    main()
