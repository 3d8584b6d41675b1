#!/usr/bin/env python3
"""Writes the units of a bench run as STM-1 frames into a pcap file, for Wireshark.

    tools/pcap.py SCRIPT -o FILE --bench PROGRAM [ARGS..]

PROGRAM plays a bench script from its standard input (docs/BENCH.md). The script is played with
a `show` before each `sink`, those of `run` too, so that what is framed is the line as the sink
was fed it: damaged, overwritten or repeated units too, and none that the sink never got.

A frame is 9 rows of 270 bytes: nine of section overhead, then 261. A unit begins with row 4, of
which its first nine bytes are the first nine, and ends with row 3 of the next frame; rows 1 to 3
of the first frame are 00, and the last unit's last 783 bytes are in none. Of the section overhead
there is as much as Wireshark needs: A1, A2, and J0 of 01; the rest is 00. B1 and B2 are not
computed, and nothing is scrambled.

A line of other than 2358 bytes is named on standard error and left out: no frame has room for
more or fewer, and bytes put in would be bytes that nobody sent. The n-th line that the sink is
fed has the time (n - 1) x 125 microseconds, so that one that is left out leaves a gap.
"""

import argparse
import os
import struct
import subprocess
import sys

sys.dont_write_bytecode = True  # nothing is left beside the tools
import script  # noqa: E402

LIMIT = 120  # seconds for the run
UNIT, HEADER, ROWS, PAYLOAD = 2358, 9, 9, 261
OVERHEAD = bytes.fromhex("F6F6F6 282828 010000")  # row 1: A1, A2, J0
MICROSECONDS = 125
USER_0 = 147  # the link type that Wireshark leaves to its user
SETTING = 'uat:user_dlts:"User 0 (DLT=147)","sdh","0","","0",""'  # and this is how it is told

OPENING = f"""
To open FILE in Wireshark, say once that link type 147 is SDH: Edit, Preferences, Protocols, DLT_USER, Encapsulations Table,
Edit, and there a row with DLT "User 0 (DLT=147)" and payload "sdh". Or, for one time, on the command line:

    wireshark -o '{SETTING}' FILE
    tshark -o '{SETTING}' -r FILE -T fields -e frame.number -e sdh.h1 -e sdh.h2 -e sdh.au -e sdh.j1

Wireshark reads each pointer word as it stands and knows no adjustments: in an adjustment unit its value and J1 say nothing.
For values from 522 up it looks for J1 in rows 1 to 3 of the same frame, which hold the end of the unit before.
"""


def stm1(units):
    """The units as frames, one each, without a gap."""
    end_before = bytes(3 * PAYLOAD)
    for unit in units:
        carried = end_before + unit[HEADER:]
        rows = [carried[k : k + PAYLOAD] for k in range(0, ROWS * PAYLOAD, PAYLOAD)]
        overhead = [OVERHEAD] + [bytes(HEADER)] * (ROWS - 1)
        overhead[3] = unit[:HEADER]
        yield b"".join(left + right for left, right in zip(overhead, rows))
        end_before = carried[ROWS * PAYLOAD :]


def pcap(frames, places=None):
    """A capture file of the frames; `places` has the place of each in the run, from 0, where that is not its own."""
    parts = [struct.pack("<IHHiIII", 0xA1B2C3D4, 2, 4, 0, 0, 65535, USER_0)]
    for k, frame in enumerate(frames):
        seconds, rest = divmod((places[k] if places else k) * MICROSECONDS, 1000000)
        parts.append(struct.pack("<IIII", seconds, rest, len(frame), len(frame)) + frame)
    return b"".join(parts)


def stop(text):
    sys.exit(f"pcap.py: {text}")


def with_shows(lines):
    """The script with a `show` before each `sink`, and the number in the script of each line that feeds the sink, as often as it does."""
    longer, sinks = [], []
    for line in lines:
        if line.name == "run":
            longer += [b"src -", b"show", b"sink"] * line.given["times"]
            sinks += [line.number] * line.given["times"]
        elif line.name == "sink":
            longer += [b"show", line.text]
            sinks.append(line.number)
        elif line.name:
            longer.append(line.text)
    return b"\n".join(longer) + b"\n", sinks


def play(command, played):
    try:
        done = subprocess.run(command, input=played, stdout=subprocess.PIPE, stderr=subprocess.PIPE, timeout=LIMIT, check=False)
    except (OSError, ValueError, subprocess.TimeoutExpired) as error:
        stop(f"{command[0]} cannot be run: {error}")
    if done.returncode != 0:
        stop(f"{command[0]} ended with {done.returncode}: {done.stderr.decode(errors='replace')[-2000:]}")
    return script.printed_lines(done.stdout)


def fed(played, printed):
    """The line's bytes at each `sink`: what `show` printed right before."""
    shown = None
    for step in script.pair(script.read(played), printed):
        if step.name == "sink":
            yield shown["bytes"]
        shown = step.answer


def arguments():
    about, _, more = __doc__.partition("\n\n")
    parser = argparse.ArgumentParser(prog="pcap.py", formatter_class=argparse.RawDescriptionHelpFormatter,
                                     usage="pcap.py SCRIPT -o FILE --bench PROGRAM [ARGS..]",
                                     description=about, epilog=more.partition("\n\n")[2] + OPENING)
    parser.add_argument("script", metavar="SCRIPT", help="the script to be played")
    parser.add_argument("-o", metavar="FILE", dest="file", required=True, help="the pcap file to be written")
    parser.add_argument("--bench", metavar="PROGRAM", nargs=argparse.REMAINDER, required=True,
                        help="the bench and its arguments; everything behind --bench is taken for that")
    asked = parser.parse_args()
    if not asked.bench:
        parser.error("--bench needs a program")
    return asked


def main():
    asked = arguments()
    try:
        with open(asked.script, "rb") as file:
            lines = script.read(file.read())
    except OSError as error:
        stop(f"the script cannot be read: {error}")
    longer, sinks = with_shows(lines)
    if not sinks:
        stop(f"{asked.script}: no unit in it: no line feeds the sink")
    units, places = [], []
    try:
        for place, (number, line) in enumerate(zip(sinks, list(fed(longer, play(asked.bench, longer))))):
            if len(line) == UNIT:
                units.append(line)
                places.append(place)
            else:
                print(f"pcap.py: {asked.script}:{number}: {len(line)} bytes, not {UNIT}: no frame", file=sys.stderr)
    except script.Fault as fault:
        stop(f"{asked.bench[0]} does not play it (lines are counted with a `show` before each `sink`): {fault}")
    if not units:
        stop(f"{asked.script}: no unit of {UNIT} bytes in it: nothing is written")
    content = pcap(stm1(units), places)
    try:
        with open(asked.file, "wb") as file:
            file.write(content)
    except OSError as error:
        stop(f"cannot be written: {error}")
    try:
        print(f"pcap.py: {asked.file}: {len(units)} frames", flush=True)
    except BrokenPipeError:  # the file is written, and nobody wants to hear of it
        os.dup2(os.open(os.devnull, os.O_WRONLY), sys.stdout.fileno())


if __name__ == "__main__":
    main()
