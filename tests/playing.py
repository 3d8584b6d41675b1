"""A script played on a program that speaks the bench's language, and its lines read, for the tests that read what is printed."""

import os
import re
import subprocess
import sys
from collections import namedtuple

LIMIT = 120  # seconds for one run of one program
WORD = re.compile(r'"(?:[^"]|"")*"(?= |$)|[^ "#][^ ]*')
CONTAINER = re.compile(r"(D@0|U@\d+),([0-9A-F]{8}),v=(\d),(?:p=([0-9A-F]{2}),)?fe=(\d)")
# of a container that the sink handed back: where, its FNV, its violations, the columns as a byte with column 1 the highest bit, the violations returned
Container = namedtuple("Container", "place fnv violations columns returned")


def run(command, given=b"", env=None):
    """The ended run. A program that cannot be run, or does not end, ends the test."""
    try:
        return subprocess.run(command, input=given, stdout=subprocess.PIPE, stderr=subprocess.PIPE, timeout=LIMIT, check=False, env=env)
    except (OSError, subprocess.TimeoutExpired) as error:
        sys.exit(f"{os.path.basename(sys.argv[0])}: {command[0]} cannot be run: {error}")


def play(command, script, name):
    """What is printed, as bytes. `name` says which script it was where the program fails."""
    done = run(command, script)
    if done.returncode != 0:
        sys.exit(f"{os.path.basename(sys.argv[0])}: {name}: {command[0]} ended with {done.returncode}: {done.stderr.decode(errors='replace')[-2000:]}")
    return done.stdout


def read_line(line):
    """The words of a script's line, a trace in quotes being one, and its comment from the `#` on ("" where it has none).
    The words are none where a quote does not end as it must."""
    words, rest = [], line.removesuffix("\r").strip(" ")
    while rest and not rest.startswith("#"):
        found = WORD.match(rest)
        if not found:
            return None, ""
        words.append(found.group())
        rest = rest[found.end():].lstrip(" ")
    return words, rest


def containers_of(line, fault):
    """The containers of a line that `sink` printed. `fault` is told where one is not written as it must be, the violations are not as many as the columns,
    columns are printed where there are none, or the line ends another number of containers."""
    containers = []
    for word in line.split(" "):
        if not word.startswith("c="):
            continue
        found = CONTAINER.fullmatch(word[2:])
        if not found:
            fault(f"{word} is not how a container is printed: {line}")
            continue
        place, fnv, violations, columns, returned = found.groups()
        one = Container(place, fnv, int(violations), int(columns or "0", 16), int(returned))
        if one.violations != one.columns.bit_count() or columns == "00":
            fault(f"{word} does not have as many violations as columns, or has no column and prints them: {line}")
        containers.append(one)
    if line.startswith("ok ") and f" ended={len(containers)} " not in line:
        fault(f"{len(containers)} containers are read: {line}")
    return containers


def trace_of(word):
    """The fifteen bytes of a trace in quotes, or of thirty hex digits."""
    return word[1:-1].replace('""', '"').encode(errors="surrogateescape").ljust(15) if word.startswith('"') else bytes.fromhex(word)


def trace_refused(trace):
    """How a trace is refused, `5 3`, `20 15` or `21`: its first character below 20 or above 7E with the place from 1, or spaces alone; none where it is not."""
    for place, byte in enumerate(trace, 1):
        if not 0x20 <= byte <= 0x7E:
            return f"{5 if byte < 0x20 else 20} {place}"
    return "21" if trace == b" " * 15 else None


def refused_at_once(words):
    """What a `tx` or `rx` that is understood prints: `tx refused N`, with the place behind it where one is named; or none."""
    label, trace = int(words[1], 16), trace_of(words[2])
    refused = ("4" if label in (0x00, 0xFF) else trace_refused(trace)
               or ("6" if words[0] == "tx" and int(words[3]) > 8 else None))
    return f"{words[0]} refused {refused}" if refused else None
