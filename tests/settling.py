#!/usr/bin/env python3
"""Runs that settle, and what breaks without each hypothesis: the scripts of examples/settling.

    tests/settling.py SECOND [BENCH]

SECOND is the second program, asked with `bench`. Each script has one run or more, which begin
behind a line `# the run`; units are counted from there. The table below says of each run which
hypotheses of crates/settles/specs/Demand.antt it drops, as read from the script itself, which
units end unsettled, and what is seen from the 67th unit on: units whose containers are not the
ones that the source says ended since the sink was fed last (containers are made here once more,
after docs/BENCH.md, and compared by their FNV), violated columns, defects, calls that are refused.
Nothing else may break. A run that drops nothing must be as the statement says, one that drops
something must break it. The printed total must be the number of settled=0 lines since `fresh`.
docs/SETTLING.md shows the last two units of the worst run.

Where BENCH, the proved bench, is given, it must print what SECOND prints.
"""

import os
import re
import sys

sys.dont_write_bytecode = True  # no folder beside the tests
from playing import containers_of, play, read_line, refused_at_once, trace_of, trace_refused

ROOT = os.path.dirname(os.path.dirname(os.path.abspath(__file__)))
FOLDER = os.path.join(ROOT, "examples", "settling")
PAGE = "docs/SETTLING.md"
MOST = 66
PLAIN = "-"
RUN = "# the run"


def all_of(first, last):
    return range(first, last + 1)


def run(broken, units, unsettled=(), wrong=(), columns=None, defects=None, refused=(), handed=None):
    """`broken`: the hypotheses dropped. `units`: how often the sink is asked. The rest as above; the columns of a unit's
    containers, and defects, by unit, from the 67th on; `refused`: what is printed, in order; `handed`: the numbers of the containers
    that some units hand back, from 0 since `fresh`, None being one that was not sent."""
    return {"broken": set(broken), "units": units, "unsettled": set(unsettled), "wrong": set(wrong),
            "columns": columns, "defects": defects or {}, "refused": list(refused), "handed": handed or {}}


# Where `columns` is None they are whatever the payload makes them, in units that are wrong or follow one.
TABLE = {
    "worst": [run([], 67, all_of(1, 66), handed={3: [], 4: [17], 9: [22], 12: [25], 13: [], 14: [26], 20: [32], 67: [79]})],
    "under_way": [run([], 67, all_of(1, 66), handed={3: [], 4: [17], 13: [], 67: [79]})],
    "early_adjustment": [run(["quiet"], 300, all_of(1, 300), wrong=[unit for unit in all_of(67, 300) if (unit - 71) % 8 > 1],
                             defects=dict.fromkeys(all_of(67, 300), "dTIM"))],
    "late_lock": [run(["quiet"], 70, all_of(1, 69), defects=dict.fromkeys(all_of(67, 69), "dTIM"),
                      handed={6: [], 7: [17], 13: [], 70: [79]})],
    "too_close": [run(["apart"], 71, all_of(1, 63), wrong=[70], columns={71: ["4F"]}, refused=["unit refused 7"],
                      handed={67: [], 68: [66], 69: [67], 70: [None], 71: [68]})],
    "other_label": [run(["label"], 80, all_of(1, 80), defects=dict.fromkeys(all_of(67, 80), "dPLM"))],
    "other_trace": [run(["trace"], 80, all_of(1, 80), defects=dict.fromkeys(all_of(67, 80), "dTIM"))],
    "remote_defect": [run(["remote"], 80, all_of(1, 80), defects=dict.fromkeys(all_of(67, 80), "dRDI"))],
    "settings_changed": [run(["settings"], 74, [*all_of(1, 63), *all_of(67, 71)], defects=dict.fromkeys(all_of(67, 71), "dPLM"))],
    "buffers_not_kept": [run(["kept"], 68, all_of(1, 63), wrong=[67], columns={67: ["64"], 68: ["28"]}, handed={66: [65], 67: [None], 68: [67]})],
    "wrong_lengths": [run(["lengths"], 1, refused=["refused 3"])] * 2,
    "refused_label": [run(["label-fine"], 1, refused=["container refused 4", "refused 4"])] * 2,
    "refused_trace": [run(["trace-fine"], 1, refused=[f"container refused {said}", f"refused {said}"]) for said in ("5 15", "20 15", "21")],
    "refused_violations": [run(["violations"], 0, refused=["container refused 6"])],
    "damaged_byte": [run(["line"], 68, all_of(1, 63), wrong=[67], columns={68: ["01"]}, handed={66: [65], 67: [None], 68: [67]})],
    "cut_unit": [run(["line"], 1, refused=["refused 1"])],
    "lost_unit": [run(["successive"], 67, all_of(1, 63), wrong=[67], columns={67: ["40"]}, handed={66: [65], 67: [67]})],
    "repeated_unit": [run(["successive"], 69, all_of(1, 63), wrong=[68], columns={68: ["40"]}, handed={67: [66], 68: [66], 69: [67]})],
    "lost_units": [run(["successive"], 94, all_of(1, 94), defects=dict.fromkeys(all_of(67, 94), "dTIM"), handed={47: [46], 48: [48]})],
}


def fnv(data):
    value = 0x811C9DC5
    for byte in data:
        value = ((value ^ byte) * 0x01000193) & 0xFFFFFFFF
    return f"{value:08X}"


def parity(data):
    value = 0
    for byte in data:
        value ^= byte
    return value


def start_byte(trace):
    rest = 0
    for byte in bytes([0x80]) + trace:
        for place in range(7, -1, -1):
            rest = rest << 1 | byte >> place & 1
            if rest & 0x80:
                rest ^= 0x89
    for _ in range(7):
        rest <<= 1
        if rest & 0x80:
            rest ^= 0x89
    return 0x80 | rest


class Sender:
    """The containers that the source is given, in order, each as its FNV."""

    def __init__(self):
        self.place = self.parity = self.seed = 0
        self.queue, self.number = [], {}

    def fill(self, label, trace, violations, remote):
        while len(self.queue) < 2:
            x, payload = self.seed, bytearray()
            for _ in range(2340):
                x = (x * 1664525 + 1013904223) & 0xFFFFFFFF
                payload.append(x >> 24)
            j1 = trace[self.place - 1] if self.place else start_byte(trace)
            column = [j1, self.parity, label, violations << 4 | remote << 3, 0x11, 0x22, 0x33, 0x44, 0x55]
            container = b"".join(bytes([byte]) + payload[260 * row:260 * row + 260] for row, byte in enumerate(column))
            self.place, self.parity, self.seed = (self.place + 1) % 16, parity(container), self.seed + 1
            self.queue.append(fnv(container))
            self.number[self.queue[-1]] = self.seed - 1


SINK = re.compile(r"ok st=\w+ off=[-\d]+ held=\d+ ended=\d(?: c=\S+)* ssf=\d tsf=\d ais=\d rdi=\d d=([\w,]+|-) "
                  r"cause=(?:[\w,]+|-) settled=([01]) total=(\d+) hb=\w{8} db=\w{8}")
UNIT = re.compile(r"unit ended=(\d) word=\w{4} fnv=\w{8} off=\d+")


class Seen:
    """What one run of a script shows."""

    def __init__(self, line):
        self.broken = set()
        self.units = self.sent = 0
        self.lines = [line]  # that of the run, and of each unit's `sink`
        self.last_adjusted = None
        self.unsettled, self.wrong, self.columns, self.defects, self.refused, self.handed = set(), set(), {}, {}, [], {}


def settings_dropped(tx, rx):
    """The hypotheses about what is sent and what is expected, as they stand."""
    label, trace, violations, remote = tx
    for broken, name in ((label != rx[0], "label"), (trace != rx[1], "trace"), (remote == 1, "remote"),
                         (violations > 8, "violations"), (rx[0] in (0x00, 0xFF), "label-fine"),
                         (trace_refused(rx[1]), "trace-fine")):
        if broken:
            yield name


def calls(script, fault):
    """The script's commands as words, each with the number of its line; a `run` is told call by call, and RUN where a run begins."""
    for number, line in enumerate(script, 1):
        words, comment = read_line(line)
        if words is None:
            fault(number, f"this test does not understand {line}")
        elif words and words[0] == "run":
            for _ in range(int(words[1])):
                yield number, ["src", "-"]
                yield number, ["sink"]
        elif words:
            yield number, words
        elif comment.startswith(RUN):
            yield number, [RUN]


def look(script, printed, fault):
    """The runs of a script with what is seen of each; `fault` is told a line's number and what is wrong there."""
    said = iter(printed)
    tx, rx = (0x12, b"03E5".ljust(15), 0, 0), (0x12, b"03E5".ljust(15))
    sender, total, runs, seen = Sender(), 0, [], None
    lengths = [2349, 2349]
    fed, pending = True, []  # was the line fed to the sink; the containers that ended since it was
    for number, words in calls(script, fault):
        if words[0] == RUN:
            seen = Seen(number)
            runs.append(seen)
            seen.broken.update(settings_dropped(tx, rx))
            if lengths != [2349, 2349]:
                seen.broken.add("lengths")
            fed, pending = True, []
            continue
        if words[0] == "tx":
            tx = int(words[1], 16), trace_of(words[2]), int(words[3]), int(words[4])
        elif words[0] == "rx":
            rx = int(words[1], 16), trace_of(words[2])
        elif words[0] == "lens":
            lengths = [int(words[1]), int(words[2])]
        elif words[0] not in ("src", "sink", "fill", "word", "xor", "ones", "len"):
            fault(number, f"this test does not know the command {words[0]}")
        if seen:
            dropped = {"tx": "settings", "rx": "settings", "lens": "kept", "fill": "kept",
                       "word": "line", "xor": "line", "ones": "line", "len": "line"}.get(words[0])
            # settings between two runs belong to the next
            later = any(other.startswith(RUN) for other in script[number:])
            if dropped and not (later and words[0] in ("tx", "rx", "lens")):
                seen.broken.add(dropped)
        if words[0] in ("tx", "rx") and refused_at_once(words):
            answer = next(said, "(no line)")
            if answer != refused_at_once(words):
                fault(number, f"{refused_at_once(words)} must be printed at once, not {answer}")
        if words[0] not in ("src", "sink"):
            continue
        answer = next(said, "(no line)")
        if "refused" in answer and seen:
            seen.refused.append(answer)
        if words[0] == "src":
            if seen:
                seen.sent += 1
                if not fed:
                    seen.broken.add("successive")
                if words[1] != "-":
                    if seen.sent <= 8:
                        seen.broken.add("quiet")
                    if seen.last_adjusted is not None and seen.sent - seen.last_adjusted <= 3:
                        seen.broken.add("apart")
                    seen.last_adjusted = seen.sent
            fed = False
            if answer.startswith("container refused"):
                continue
            sender.fill(*tx)
            if answer.startswith("unit refused"):
                continue
            unit = UNIT.fullmatch(answer)
            if not unit:
                fault(number, f"not a unit's line: {answer}")
                continue
            ended = int(unit.group(1))
            pending += sender.queue[:ended]
            del sender.queue[:ended]
            continue
        if seen:
            seen.units += 1
            seen.lines.append(number)
            if fed:
                seen.broken.add("successive")
        fed = True
        if answer.startswith("refused"):
            continue
        sink = SINK.fullmatch(answer)
        if not sink:
            fault(number, f"not a sink's line: {answer}")
            continue
        defects, settled, printed_total = sink.groups()
        containers = containers_of(answer, lambda what, number=number: fault(number, what))
        total += settled == "0"
        if total != int(printed_total):
            fault(number, f"{total} units ended unsettled, the total printed is {printed_total}")
            total = int(printed_total)
        if seen:
            seen.handed[seen.units] = [sender.number.get(one.fnv) for one in containers]
            if settled == "0":
                seen.unsettled.add(seen.units)
            if seen.units > MOST:
                if [one.fnv for one in containers] != pending:
                    seen.wrong.add(seen.units)
                if any(one.columns for one in containers):
                    seen.columns[seen.units] = [f"{one.columns:02X}" for one in containers]
                if defects != PLAIN:
                    seen.defects[seen.units] = defects
        pending = []
    for answer in said:
        fault(len(script), f"one line more is printed: {answer}")
    return runs


def short(value):
    """Units as ranges, for a message."""
    if isinstance(value, dict):
        said = {}
        for unit, what in value.items():
            said.setdefault(str(what), set()).add(unit)
        return ", ".join(f"{short(units)}: {what}" for what, units in said.items()) or "none"
    if isinstance(value, set) and all(isinstance(unit, int) for unit in value):
        parts = []
        for unit in sorted(value):
            if parts and parts[-1][1] == unit - 1:
                parts[-1][1] = unit
            else:
                parts.append([unit, unit])
        return " ".join(str(a) if a == b else f"{a}-{b}" for a, b in parts) or "none"
    if isinstance(value, set):
        return ", ".join(sorted(value)) or "none"
    return str(value)


def line_of(here, there, seen):
    """The script's line of the first unit in which the two differ; that of the run where they are not about units."""
    if isinstance(here, dict):
        units = [unit for unit in {**here, **there} if here.get(unit) != there.get(unit)]
    else:
        units = [unit for unit in here ^ there if isinstance(unit, int)] if isinstance(here, set) else []
    first = min(units, default=0)
    return seen.lines[first] if first < len(seen.lines) else seen.lines[-1]


def compare(expected, seen, fault):
    for key, what in (("broken", "hypotheses dropped"), ("units", "units fed"), ("unsettled", "unsettled units"),
                      ("wrong", "units from the 67th on that hand back other containers"),
                      ("columns", "violated columns from the 67th on"), ("defects", "defects from the 67th on"),
                      ("refused", "refused"), ("handed", "containers handed back")):
        here, there = getattr(seen, key), expected[key]
        if key == "columns" and there is None:
            # any, but only in a wrong unit or the one behind it
            there = {unit: here[unit] for unit in here if unit in seen.wrong or unit - 1 in seen.wrong}
        if key == "handed":
            here = {unit: here.get(unit) for unit in there}
        if here != there:
            fault(line_of(here, there, seen), f"{what}: {short(here)}; the table says {short(there)}")
    breaks = len(seen.unsettled) > MOST or seen.wrong or seen.columns or seen.defects or seen.refused
    if not seen.broken and breaks:
        fault(seen.lines[0], "no hypothesis is dropped, and yet the statement fails")
    if seen.broken and not breaks:
        fault(seen.lines[0], "a hypothesis is dropped, and yet nothing breaks")


def main():
    if len(sys.argv) not in (2, 3):
        sys.exit("usage: settling.py SECOND [BENCH]")
    second, *bench = (os.path.abspath(path) for path in sys.argv[1:])
    failed = units = 0

    def complain(place, what):
        nonlocal failed
        failed += 1
        print(f"settling.py: {place}: {what}")

    names = sorted(file[:-len(".bench")] for file in os.listdir(FOLDER) if file.endswith(".bench"))
    if names != sorted(TABLE):
        complain("examples/settling", f"the scripts and the table differ in {', '.join(sorted(set(names) ^ set(TABLE)))}")
    for name in names:
        if name not in TABLE:
            continue
        with open(os.path.join(FOLDER, f"{name}.bench"), "rb") as file:
            text = file.read()
        script = text.decode().split("\n")
        if not script[0].startswith("# "):
            complain(f"{name}.bench:1", "the first line is no comment")
        printed = play([second, "bench"], text, name).decode(errors="replace").splitlines()
        if bench:
            proved = play(bench, text, name).decode(errors="replace").splitlines()
            for place, (a, b) in enumerate(zip(proved, printed), 1):
                if a != b:
                    complain(name, f"printed line {place}: the bench says {a}, the second program {b}")
                    break
            if len(proved) != len(printed):
                complain(name, f"the bench prints {len(proved)} lines, the second program {len(printed)}")

        if name == "worst":
            last = [line for line in printed if line.startswith("ok ")][-2:]
            with open(os.path.join(ROOT, PAGE), encoding="utf-8") as file:
                if [line.strip() for line in file if line.startswith("    ok ")] != last:
                    complain(PAGE, f"it does not show the last two units of the worst run: {' / '.join(last)}")

        def told(number, what, name=name):
            complain(f"{name}.bench:{number}", what)

        runs = look(script, printed, told)
        if len(runs) != len(TABLE[name]):
            complain(name, f"{len(runs)} runs; the table says {len(TABLE[name])}")
        for expected, seen in zip(TABLE[name], runs):
            units += seen.units
            compare(expected, seen, told)
    print(f"settling.py: {len(names)} scripts, {units} units" + (f", {failed} failures" if failed else ", all as the table says"))
    if failed:
        sys.exit(1)


if __name__ == "__main__":
    main()
