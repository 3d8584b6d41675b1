#!/usr/bin/env python3
"""What a gate did of each crate, and whether all of it was done.

Usage: costs.py LOG     LOG is what `rt ci` printed; the repository is the one that this file stands in.

Prints a row for each crate, those with the most edits first: whether it was proved in this run or is kept from an earlier one of the same files on this machine, its
must-fail edits that were refused, and of these how many only by a limit of the prover, and how many only since a proof names what the edit took away. What a check took
rt does not say. Then how many crates of those in crates.txt were proved, how many with tests passed them, how many programs of those were run, as each of the two
compilers builds them, and how many edits of those in crates/*/must-fail were refused. The status is 1 where any is missing or an edit is bad, and 2 where the log cannot be read.
"""
import collections
import pathlib
import re
import sys

ROOT = pathlib.Path(__file__).resolve().parent.parent

PROVED = re.compile(r"^rt: (\w+) proved$", re.M)
KEPT = re.compile(r"^rt: (\w+) is kept: ", re.M)
PASSED = re.compile(r"^rt: (\w+): its tests passed$", re.M)
RAN = re.compile(r"^rt: (\w+) ran, and wrote\b", re.M)
RAN_TOO = re.compile(r"^rt: (\w+) ran \(built by Rattle's own compiler\), and wrote\b", re.M)
LEFT_OUT = "note: Rattle's own compiler did not compile this program"
REFUSED = re.compile(r"^rt: must-fail (\w+)/(\S+)\.edit: refused, as it must be(?: \((only \w+) )?", re.M)
# what is said at the end where all went well
OK = re.compile(r"^rt: ok; .*$", re.M)
BAD = re.compile(r", \d+ bad(?=[;,]|$)")
TEST = re.compile(r"^\s*#\[test\]", re.M)


def listed():
    lines = (line.split("#")[0] for line in (ROOT / "crates.txt").read_text(encoding="utf-8").split("\n"))
    return [line.split(":")[0].split()[0] for line in lines if ":" in line]


def tested(crate):
    return any(TEST.search(path.read_text(encoding="utf-8")) for path in (ROOT / "crates" / crate / "src").rglob("*.rt"))


def missing(what, wanted, found):
    """Says how many of how many, and which are not there."""
    lost = sorted(set(wanted) - set(found))
    print(f"{what}: {len(wanted) - len(lost)} of {len(wanted)}" + (f"; missing: {' '.join(lost)}" if lost else ""))
    return bool(lost)


def main():
    if len(sys.argv) != 2 or sys.argv[1] in ("-h", "--help"):
        print(__doc__.split("\n\n")[1], file=sys.stderr)
        return 2
    try:
        log = pathlib.Path(sys.argv[1]).read_text(encoding="utf-8", errors="replace")
    except OSError as fault:
        print(f"costs.py: {fault}", file=sys.stderr)
        return 2
    how = {**dict.fromkeys(KEPT.findall(log), "kept"), **dict.fromkeys(PROVED.findall(log), "proved")}
    refused = {(crate, label): why for crate, label, why in REFUSED.findall(log)}
    of = {name: collections.Counter(why for (crate, _), why in refused.items() if crate == name) for name in how}
    print(f"{'crate':26}{'edits':>7}{'by a limit':>12}{'by a name':>11}")
    for name in sorted(how, key=lambda name: (-sum(of[name].values()), name)):
        print(f"{name:26}{sum(of[name].values()):7}{of[name]['only by']:12}{of[name]['only because']:11}  {how[name]}")
    every = sum(of.values(), collections.Counter())
    print(f"{'all':26}{len(refused):7}{every['only by']:12}{every['only because']:11}")
    edits = [f"{path.parts[-3]}/{path.stem}" for path in ROOT.glob("crates/*/must-fail/*.edit")]
    programs = [name for name in listed() if (ROOT / "crates" / name / "src" / "main.rt").exists()]
    faults = [missing("crates proved", listed(), how),
              missing("tests of crates passed", [name for name in listed() if tested(name)], PASSED.findall(log)),
              missing("programs run", programs, RAN.findall(log)),
              LEFT_OUT not in log and missing("and as Rattle's own compiler builds them", programs, RAN_TOO.findall(log)),
              missing("edits refused", edits, ["/".join(edit) for edit in refused])]
    said = OK.findall(log)
    if not said or BAD.search(said[-1]):
        print(f"rt ci does not say that all is well, or that an edit is bad: {said[-1] if said else 'no line begins with `rt: ok`'}")
        faults.append(True)
    return 1 if any(faults) else 0


if __name__ == "__main__":
    sys.exit(main())
