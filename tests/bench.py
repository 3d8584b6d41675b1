#!/usr/bin/env python3
"""The bench of the proved program against the second program's, script by script.

    tests/bench.py BENCH SECOND SCRIPTS [SEEDS [UNITS]]
    tests/bench.py --try SECOND SCRIPTS [SEEDS [UNITS]]

BENCH reads a script on standard input; SECOND is the second program, asked with `bench`;
SCRIPTS makes a script from a seed and a number of units; the scripts under examples and
lessons are played too, and a few that are long. The first line that differs is printed with the script
up to the line that caused it. Every case that the second program names must be met by
some random script, and each container that a random script prints has as many violations
as columns. Of both programs each typed line must be answered before the next is
typed, and output that cannot be written must be said on standard error. The proved bench
must do with a stack of 1 MiB, and print what docs/BENCH.md shows.

With --try there is no program yet: `rt try` runs the bench's source compiled with the
language's checks, and on an interpreter where that ends in its steps; each must print
what SECOND prints. Nothing is proved for that, so it is quick; many scripts are played
as one, and one by one where they differ. Nothing is typed at it.
"""

import os
import re
import resource
import select
import shutil
import subprocess
import sys
import tempfile
import time

sys.dont_write_bytecode = True  # no folder beside the tests
from playing import containers_of

LIMIT = 120  # seconds for one run of one program
ANSWER = 30  # seconds for the answer to one typed line: none takes a second, so that only a program which waits for more comes to it
SHOWN = 200  # bytes of a line that are shown where two differ
MARK = b"\xef\xbb\xbf"
MOST = 450000  # bytes of a script, or of what it prints: `rt try` stops at 1048576, and stops a run that takes long, as the checked build does on a busy machine
ROOT = os.path.dirname(os.path.dirname(os.path.abspath(__file__)))
# the bench as it begins, for a script that follows another
BEGIN = b'fresh\ntx 12 "03E5" 0 0\nrx 12 "03E5" 0\n'


def run(command, script, what, both=False, prepare=None):
    """Standard output's bytes, and standard error's where both are asked for. What is to be prepared is done in the new process."""
    try:
        with tempfile.TemporaryFile() as stdin:
            stdin.write(script)
            stdin.seek(0)
            done = subprocess.run(command, stdin=stdin, stdout=subprocess.PIPE, stderr=subprocess.PIPE,
                                  timeout=LIMIT, check=False, preexec_fn=prepare)
    except subprocess.TimeoutExpired:
        sys.exit(f"bench.py: {what}: {command[0]} did not end within {LIMIT} seconds")
    except OSError as error:
        sys.exit(f"bench.py: {what}: {error}")
    if done.returncode != 0:
        sys.exit(f"bench.py: {what}: {command[0]} ended with {done.returncode}: "
                 f"{done.stderr.decode(errors='replace')[-2000:]}")
    return (done.stdout, done.stderr) if both else done.stdout


def lines_of(script):
    """Without their LF, which alone ends a line: a CR and a mark stay where they are."""
    lines = script.split(b"\n")
    if lines and lines[-1] == b"":
        lines.pop()
    return lines


def text(line):
    """A line as it can be read: a byte that is none of 20 to 7E as \\xHH, the CR as \\r; a long one cut."""
    if line is None:
        return "(no line)"
    shown = line[:SHOWN].decode("ascii", errors="backslashreplace").replace("\r", "\\r").replace("\t", "\\t")
    shown = "".join(c if " " <= c <= "~" else f"\\x{ord(c):02x}" for c in shown)
    return shown if len(line) <= SHOWN else f"{shown}.. ({len(line)} bytes)"


def causing_line(second, script, place, what):
    """The number of the script line that prints output line `place` (from 0) in the second program.

    The script is run cut short: the fewest of its lines that print more than `place` lines. A line
    that the proved program alone prints lies behind the last line of the second's; then the whole
    script is meant.
    """
    lines = lines_of(script)
    low, high = 0, len(lines)
    while low < high:
        middle = (low + high) // 2
        part = b"".join(line + b"\n" for line in lines[:middle])
        if len(lines_of(run([second, "bench"], part, what))) > place:
            high = middle
        else:
            low = middle + 1
    return min(low, len(lines))


def differ(name, second, script, place, proved_line, second_line):
    number = causing_line(second, script, place, name)
    lines = lines_of(script)
    print(f"bench.py: {name}: output line {place + 1} differs")
    print(f"  proved: {text(proved_line)}")
    print(f"  second: {text(second_line)}")
    caused = text(lines[number - 1]) if number else "(none)"
    print(f"  script line {number}: {caused}")
    print("the script up to there:")
    sys.stdout.flush()
    sys.stdout.buffer.write(b"".join(line + b"\n" for line in lines[:number]))
    sys.stdout.buffer.flush()
    sys.exit(1)


def compare(name, second, script, proved, expected):
    if proved == expected:
        return
    ours, theirs = lines_of(proved), lines_of(expected)
    for place in range(max(len(ours), len(theirs))):
        a = ours[place] if place < len(ours) else None
        b = theirs[place] if place < len(theirs) else None
        if a != b:
            differ(name, second, script, place, a, b)
    sys.exit(f"bench.py: {name}: the outputs differ in their last LF alone")


def tried(tree, script, expected, what):
    """What `rt try` says where the bench prints anything but `expected`; none where it prints that."""
    cases = os.path.join(tree, "cases")
    os.makedirs(cases, exist_ok=True)
    for name, content in (("script", script), ("script.stdout", expected)):
        with open(os.path.join(cases, name), "wb") as file:
            file.write(content)
    try:
        done = subprocess.run(["rt", "try", "--cases", cases], cwd=os.path.join(tree, "crates", "bench"), stdout=subprocess.PIPE, stderr=subprocess.STDOUT,
                              timeout=LIMIT, check=False)
    except (subprocess.TimeoutExpired, OSError) as error:
        sys.exit(f"bench.py: {what}: {error}")
    return None if done.returncode == 0 else done.stdout.decode(errors="replace")


def try_all(second, played):
    """The bench's source against the second program's answers, as many scripts at a time as one may hold."""
    with tempfile.TemporaryDirectory() as tree:
        shutil.copy(os.path.join(ROOT, "crates.txt"), tree)
        shutil.copytree(os.path.join(ROOT, "crates"), os.path.join(tree, "crates"), ignore=shutil.ignore_patterns("out"))
        groups = [[]]
        size = 0
        for name, script, expected in played:
            size += max(len(script), len(expected))
            if size > MOST:
                groups.append([])
                size = max(len(script), len(expected))
            groups[-1].append((name, script))
        for group in groups:
            names = f"{group[0][0]} to {group[-1][0]}"
            # one that ends without an LF gets it; a mark that is not the first byte of all is not understood by either
            script = b"".join(part if part.endswith(b"\n") else part + b"\n" for _, part in group)
            said = tried(tree, script, run([second, "bench"], script, names), names)
            if said is None:
                continue
            for name, part in group:
                alone = tried(tree, part, run([second, "bench"], part, name), name)
                if alone is not None:
                    print(f"bench.py: {name}: the bench prints something else\n{alone}\nthe script:")
                    sys.stdout.flush()
                    sys.stdout.buffer.write(part)
                    sys.stdout.buffer.flush()
                    sys.exit(1)
            sys.exit(f"bench.py: {names}, one after the other: the bench prints something else\n{said}")


def typed(command):
    """Fails unless each line is answered when it has come whole, before more is typed, and a last one without LF at the end."""
    steps = [  # what is typed, and how many lines it prints
        (b"parity 0f # of one byte\n", 1),
        (b"fresh\nlen 0\n\n#\n", 0),
        (b"show\r\n", 1),
        (b"x\n", 1),
        (b"tx 00 \"\" 0 0\nrx 12 \"03E5\" 15\n", 1),
        (b"run 2\n", 4),
        (b"rea", 0),
        (b"d 68", 0),
        (b"00\ncheck\n", 2),
        (b"read 68", 0),
    ]
    want = [b"parity 0F", b"line ", b"? 7", b"tx refused 4", b"container refused 4", b"refused 1", b"container refused 4", b"refused 1",
            b"read 6144", b"check 0", b"read 0"]
    name = os.path.basename(command[0])
    try:
        bench = subprocess.Popen(command, stdin=subprocess.PIPE, stdout=subprocess.PIPE, stderr=subprocess.DEVNULL)
    except OSError as error:
        sys.exit(f"bench.py: typing: {error}")
    said = b""
    printed = 0
    try:
        for given, lines in steps:
            bench.stdin.write(given)
            bench.stdin.flush()
            printed += lines
            end = time.monotonic() + ANSWER
            while said.count(b"\n") < printed:
                left = end - time.monotonic()
                if left <= 0 or not select.select([bench.stdout], [], [], left)[0]:
                    sys.exit(f"bench.py: typing: {name} did not answer {text(given)} within {ANSWER} seconds, before more was typed")
                more = os.read(bench.stdout.fileno(), 65536)
                if not more:
                    sys.exit(f"bench.py: typing: {name} ended at {text(given)}")
                said += more
        rest, _ = bench.communicate(timeout=LIMIT)
    except (OSError, subprocess.TimeoutExpired) as error:
        sys.exit(f"bench.py: typing: {name}: {error}")
    finally:
        bench.kill()
        bench.wait()
    got = lines_of(said + rest)
    for place in range(max(len(got), len(want))):
        a = got[place] if place < len(got) else None
        b = want[place] if place < len(want) else None
        if a != b:
            sys.exit(f"bench.py: typing: line {place + 1} of {name} is {text(a)}, and should be {text(b)}")


def unwritten(command):
    """Fails unless a program whose output cannot be written ends, and says so."""
    name = os.path.basename(command[0])
    for script in (b"parity 0F\n", b"run 9999\nshow\n", b"parity 0F"):
        try:
            with open("/dev/full", "wb") as full:
                done = subprocess.run(command, input=script, stdout=full, stderr=subprocess.PIPE, timeout=LIMIT, check=False)
        except (OSError, subprocess.TimeoutExpired) as error:
            sys.exit(f"bench.py: /dev/full: {name}: {error}")
        if not done.stderr.strip():
            sys.exit(f"bench.py: /dev/full: {name} says nothing of output that cannot be written")


def small_stack(bench, second):
    """Fails unless the proved bench needs no more stack than docs/BENCH.md says, 1 MiB at the most, whatever a line has in it."""
    script = b"run 3\nlist 5a4d0007123033453520202020202020202020200f\nparity " + b"00" * 49000 + b"\n"
    limit = (2**20, 2**20)
    said = run([bench], script, "a small stack", prepare=lambda: resource.setrlimit(resource.RLIMIT_STACK, limit))
    compare("a small stack", second, script, said, run([second, "bench"], script, "a small stack"))


def page(bench):
    """Fails unless the line that docs/BENCH.md shows is the last that its example prints."""
    with open(os.path.join(ROOT, "docs", "BENCH.md"), encoding="utf-8") as file:
        text_of_page = file.read()
    shown = re.findall(r"^    (ok st=.*)$", text_of_page, re.M)
    example = re.findall(r"^    printf '(.*)' \| target/bin/bench$", text_of_page, re.M)
    if len(shown) != 1 or len(example) != 1:
        sys.exit("bench.py: docs/BENCH.md shows no line of the sink, or no example, or more than one")
    last = lines_of(run([bench], example[0].replace("\\n", "\n").encode(), "docs/BENCH.md"))[-1].decode()
    if last != shown[0]:
        sys.exit(f"bench.py: docs/BENCH.md shows\n{shown[0]}\nand its example prints last\n{last}")


def examples():
    """The scripts under examples and lessons, by name."""
    found = []
    for top in ("examples", "lessons"):
        for folder, _, files in os.walk(os.path.join(ROOT, top)):
            found += [os.path.join(folder, file) for file in files if file.endswith(".bench")]
    for path in sorted(found):
        with open(path, "rb") as file:
            yield os.path.relpath(path, ROOT), file.read()


def long_scripts():
    """Scripts that are too long for the random ones, by name: the most runs, and more lines and bytes than one may think of."""
    yield "the most runs", b"rx 12 \"03E5\" 15\nrun 9999\nsrc i\nsink\n"
    yield "many lines", b"# nothing\nlen 0\nshow\r\n" * 100000 + b"x"
    yield "many long lines", (b"parity " + b"0f" * 49996 + b"\n") * 30 + b"x"


def number(argument, what):
    if not argument.isdecimal() or int(argument) < 1:
        sys.exit(f"bench.py: {what} is a number from 1, not {argument}")
    return int(argument)


def main():
    if len(sys.argv) not in (4, 5, 6):
        sys.exit("usage: bench.py BENCH|--try SECOND SCRIPTS [SEEDS [UNITS]]")
    trying = sys.argv[1] == "--try"
    bench, second, scripts = (os.path.abspath(path) for path in sys.argv[1:4])
    seeds = number(sys.argv[4], "SEEDS") if len(sys.argv) > 4 else 12
    units = number(sys.argv[5], "UNITS") if len(sys.argv) > 5 else 400
    met = {}
    played = []
    states = {"normal": 0, "alarm": 0, "lost": 0}
    sinks = settled = refused = compared = open_ends = 0
    for seed in range(1, seeds + 1):
        what = f"seed {seed}"
        script = run([scripts, str(seed), str(units)], b"", what)
        open_ends += not script.endswith(b"\n")
        expected, rules = run([second, "bench", "--rules"], script, what, both=True)
        if trying:
            played.append((what, script, expected))
        else:
            compare(what, second, script, run([bench], script, what), expected)
        for line in lines_of(expected):
            compared += 1
            if line.startswith(b"ok st="):
                sinks += 1
                containers_of(line.decode(), lambda fault, what=what: sys.exit(f"bench.py: {what}: {fault}"))
                states[line[6:].split(b" ", 1)[0].decode()] += 1
                settled += b" settled=1 " in line
            elif line.startswith(b"refused "):
                refused += 1
        for line in rules.decode().splitlines():
            name, count = line.rsplit(" ", 1)
            met[name] = met.get(name, 0) + int(count)
    others = 0
    for name, script in examples():
        others += 1
        if trying:
            script = BEGIN + script.removeprefix(MARK)
        expected = run([second, "bench"], script, name)
        if trying:
            played.append((name, script, expected))
        else:
            compare(name, second, script, run([bench], script, name), expected)
    if not trying:
        small_stack(bench, second)
        page(bench)
        for name, script in long_scripts():
            compare(name, second, script, run([bench], script, name), run([second, "bench"], script, name))
    for command in [[second, "bench"]] + ([] if trying else [[bench]]):
        typed(command)
        unwritten(command)
    if trying:
        try_all(second, played)
    never = [name for name, count in met.items() if count == 0]
    for name in never:
        print(f"bench.py: {name} was never met")
    if not open_ends:
        print("bench.py: no script ended without an LF")
    print(f"bench.py: {seeds} seeds and {others} examples and lessons; of the seeds {compared} lines alike, {sinks} units (normal {states['normal']}, "
          f"alarm {states['alarm']}, lost {states['lost']}, settled {settled}), {refused} refused, "
          f"{len(met) - len(never)} of {len(met)} cases met, {open_ends} scripts without a last LF")
    if never or not met or not open_ends:
        sys.exit(1)


if __name__ == "__main__":
    main()
