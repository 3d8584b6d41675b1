#!/usr/bin/env python3
"""The tests of the pages tried: texts that they must refuse, and texts that they must not.

Usage: holes.py

The repository is copied to a temporary folder and spoiled there: determinacy theorems that read nothing, too little or another function's contract,
public functions of shapes that no page can name, rules without a number, a row or a definition, rules and names that are not there, pages and pictures
that are no longer what they are made from, statements that come to what only proofs may need. The four tests below are run on it, and each trial must
be said, in a line that has all the words that stand beside it. A trial that stops the reading is made alone. What went wrong is printed, then a summary;
the status is 1 where anything did.
"""
import collections
import pathlib
import shutil
import subprocess
import sys
import tempfile

ROOT = pathlib.Path(__file__).resolve().parent.parent
PROMISES, RULES, BELIEVE, CRATES = TESTS = ("tests/promises.py", "tests/rules.py", "tools/believe.py", "tools/crates.py")

# what is done to a file: `old`, which stands in it once, becomes `new`; where there is no old text, the new one is put at its end. Then the tests that
# must say so, and the words of a line that does; where it is no fault, no test may
Trial = collections.namedtuple("Trial", "file old new said words")


def theorem(file, old, new, *words):
    return Trial(f"crates/promises/proofs/{file}.antt", old, new, [PROMISES], words)


def public(file, new, *words):
    return Trial(f"crates/{file}", None, new, [PROMISES, RULES], [f"crates/{file}:", *words])


def allowed(file, new):
    return Trial(f"crates/{file}", None, new, [], [f"crates/{file}:"])


def ruled(old, new, *words):
    return Trial("docs/CARD.md", old, new, [RULES], ["docs/CARD.md:", *words])


def rowed(old, new, *words):
    return Trial("docs/RULES.md", old, new, [RULES], words)


def exported(crate, old, new, *words):
    return Trial(f"crates/{crate}/src/lib.rt", old, new, [RULES, PROMISES], [f"crates/{crate}/src/lib.rt:", *words])


def named(file, new, *words):
    """A rule named on another page; no fault where there are no words."""
    return Trial(file, None, new, [RULES] if words else [], [f"{file}:", *words])


PEEK = "use Rattle.std.specs.Prelude.{ℕ}\npub peek : ℕ\npeek = 0\n"
HELD, DONE = "e.1.1.1.0.now", "e.1.1.1.1.0.now"

TRIALS = [
    # reads nothing; a part of the answer; the answer left out
    theorem("Determined", "1 parity.ps parity.r parity-promise.Post (λ κs r e. r)", "1 parity.ps parity.r parity-promise.Post (λ κs r e. 0)",
            "parity::parity", "parity_determined", "`0`"),
    theorem("Received", "sink-fresh.r sink-fresh-promise.Post (λ κs r e. r)", "sink-fresh.r sink-fresh-promise.Post (λ κs r e. r.total)",
            "sink::fresh", "sink_fresh_determined", "`r.total`"),
    theorem("Determined", "text-writer-hex-promise.Post (λ κs r e. record { at = e.0.now.at; out = e.0.now.out.now })", "text-writer-hex-promise.Post (λ κs r e. e.0.now.at)",
            "text::Writer::hex", "what `self.out.now` has at exit, `e.0.now.out.now`,", "text_writer_hex_determined"),
    theorem("Determined", "refusal-line-write-promise.Post (λ κs r e. record { answer = r; buffer = e.0.now })", "refusal-line-write-promise.Post (λ κs r e. e.0.now)",
            "refusal_line::write", "the answer, `r`,", "refusal_line_write_determined"),
    theorem("Determined", "records-record-trace-promise.Post (λ κs r e. r.now)", "records-record-trace-promise.Post (λ κs r e. a)",
            "records::Record::trace", "records_record_trace_determined", "`a`"),
    # a buffer left out; read at another's place; twice, and the other not; two of them run together
    theorem("Received", f"record {{ answer = r; state = e.0.now; held = {HELD}; done = {DONE} }}", f"record {{ answer = r; state = e.0.now; held = {HELD} }}",
            "sink::sink", f"what `done` has at exit, `{DONE}`,", "sink_determined"),
    theorem("Determined", "copier-copy-at-promise.Post (λ κs r e. e.1.0.now)", "copier-copy-at-promise.Post (λ κs r e. e.0.now)",
            "copier::copy_at", "what `dst` has at exit, `e.1.0.now`,", "copier_copy_at_determined"),
    theorem("Received", f"record {{ shown = r; held = {HELD}; done = {DONE} }}", f"record {{ shown = r; held = {HELD}; done = {HELD} }}",
            "probe_sink::probe_sink", f"what `done` has at exit, `{DONE}`,", "probe_sink_determined"),
    theorem("Received", "held = e.1.1.1.1.0.now; done = e.1.1.1.1.1.0.now", "held = e.1.1.1.1.0.now ++ e.1.1.1.1.1.0.now",
            "cut::cut_unit", "cut_unit_determined", "++"),
    # one of two theorems that share an outcome
    theorem("Determined", "probe-copy-promise.Post (λ κs r e. e.1.0.now)", "probe-copy-promise.Post (λ κs r e. r)",
            "probe::probe_copy", "what `dst` has at exit, `e.1.0.now`,", "probe_copy_buffer_determined"),
    # another function's contract; another's parameters
    theorem("Determined", "1 copier-fill.ps copier-fill.r copier-fill-promise.Post", "1 copier-fill.ps copier-fill.r copier-copy-promise.Post",
            "copier::fill", "copier_fill_determined does not read its contract", "copier::copy"),
    theorem("Sources", "unit-header.ps unit-header.r", "unit-pour.ps unit-header.r", "unit::header", "unit_header_determined does not read its .ps"),
    theorem("Sources", "use Rattle.unit.proofs.pour.Reads as", "use Rattle.unit.proofs.header.Reads as",
            "unit::pour", "unit_pour_determined does not read its contract"),
    # a hypothesis before it; a conclusion behind it
    theorem("Determined", "pub word_h1_determined : ", "pub word_h1_determined : 0 ≡ 1 → ", "word::h1", "word_h1_determined is not of the form"),
    theorem("Determined", "word-h2.r word-h2-promise.Post (λ κs r e. r)", "word-h2.r word-h2-promise.Post (λ κs r e. r)\n-- so\n  → ℕ",
            "word::h2", "word_h2_determined is not of the form"),
    # what they all rest on: its definition, and its words
    theorem("Determined", "f κs x s ≡ f κs y t", "f κs x s ≡ f κs x s", "Determines does not say"),
    theorem("Sources", "use Rattle.unit.proofs.header.Kinds as", "use Rattle.copier.specs.Put.{put as now}\nuse Rattle.unit.proofs.header.Kinds as",
            "Sources.antt: now is not that of what is lent"),
    theorem("Received", "use Rattle.view.specs.View.{Views}", "use Rattle.view.specs.Inner.{Seen as Views}", "Received.antt: Views is not that of Rattle.view.specs.View"),
    # the exception; a theorem that no row names
    theorem("Received", "→ (first ≡ first') × (second ≡ second')", "→ first ≡ first'", "view::of", "view_of_determined", "is not the exception"),
    theorem("Sources", "-- ---- refusals", "pub spare_determined : ℕ\nspare_determined = 0", "spare_determined stands in no row"),
    # a buffer that the code has and the theorem does not; something lent inside a parameter
    Trial("crates/overhead/src/lib.rt", "pub fn remote(g1: u8) -> bool", "pub fn remote(\n    g1: u8, // &mut\n    out: &'a mut [u8; 4],\n) -> bool", [PROMISES],
          ["overhead::remote", "what `out` has at exit, `e.1.0.now`,", "overhead_remote_determined"]),
    Trial("crates/word/src/lib.rt", "pub fn ss(w: u16) -> u16", "pub fn ss(w: Held<'a>) -> u16", [PROMISES], ["word::ss", "Held<'a>"]),
    # public functions: one in a place of its own, with no row; methods; those of modules; words between
    public("parity/src/lib.rt", "\npub fn peek(s: &[u8]) -> u8 {\n    0\n}\n", "parity::peek", "stands in no"),
    public("cut/src/lib.rt", "\nimpl Cut {\n    pub fn peek(self) -> u8 {\n        0\n    }\n}\n", "cut::Cut::peek", "stands in no"),
    public("copier/src/lib.rt", "\nimpl Cut {\npub fn peek(self) -> u8 {\n0\n}\n}\n", "copier::Cut::peek", "stands in no"),
    public("unit_end/src/lib.rt", "\nmod inner {\n    pub fn peek() -> u8 {\n        b'{'\n    }\n}\n", "`pub fn peek`"),
    public("trace_message/src/lib.rt", "\npub(crate) fn peek() {}\n", "`pub(crate) fn peek`"),
    public("word/src/lib.rt", "\npub(in crate::inner) fn peek() {}\n", "`pub(in crate::inner) fn peek`"),
    public("shape/src/lib.rt", "\npub unsafe fn peek() {}\n", "`pub unsafe fn peek`"),
    public("unit/src/lib.rt", "\npub const fn peek() {}\n", "`pub const fn peek`"),
    public("text/src/lib.rt", "\npub\nfn peek() {}\n", "`pub fn peek`"),
    public("card/src/lib.rt", '\n#[no_mangle] pub extern "C" fn peek() {}\n', '`pub extern "C" fn peek`'),
    public("sink/src/inner.rt", "pub fn fresh() {}\n", "`pub fn fresh`"),
    public("sink/src/inner/deep.rt", "pub fn peek() {}\n", "`pub fn peek`"),
    # and what is none of these
    allowed("settings/src/lib.rt", "\n// pub fn peek() {}\nstruct Peek {\n    pub at: u8, // pub\n}\nfn peek() {}\n"),
    allowed("bench/src/say.rt", "\npub fn peek() {}\n"),
    allowed("bench/src/inner.rt", "impl Peek {\n    pub fn peek(self) {}\n}\n"),
    # the card: an item, and a row, without a number; no words; another rule's anchor; a number twice, one left out, one of another section; one cell too many
    ruled("- <a id=\"r1-2\">1.2</a> It leaves", "- It leaves", "'- It leaves", "begins with its number"),
    ruled("| <a id=\"r9-5\">9.5</a> | RDI", "| 9.5 | RDI", "'| 9.5 | RDI", "begins with its number"),
    ruled("<a id=\"r2-11\">2.11</a> A value is in range from 0 to 782.", "<a id=\"r2-11\">2.11</a>", "2.11</a>'", "has words behind it"),
    ruled("<a id=\"r17-2\">17.2</a>", "<a id=\"r17-9\">17.2</a>", "rule 17.2 has the anchor of 17.9"),
    ruled("<a id=\"r16-3\">16.3</a>", "<a id=\"r16-2\">16.2</a>", "rule 16.2 comes behind 16.2"),
    ruled("<a id=\"r18-3\">18.3</a>", "<a id=\"r18-4\">18.4</a>", "rule 18.4 comes behind 18.2"),
    ruled("<a id=\"r10-3\">10.3</a>", "<a id=\"r9-15\">9.15</a>", "rule 9.15 stands in section 10"),
    ruled("| TSF | with SSF, dUNEQ or dTIM |", "| TSF | with SSF, dUNEQ or dTIM | |", "a row of 4 cells under 3 headings"),
    # an anchor elsewhere; a section's number; a rule that is not there, and a link; a pointer word, and a refusal, that the definitions have not
    ruled("Bit 1 of a byte", "<a id=\"bit\">Bit 1</a> of a byte", "Bit 1 has an anchor, and begins no item"),
    ruled("## 14. The calls", "## 41. The calls", "the heading of section 14 is"),
    ruled("after a clearing (6.6)", "after a clearing (6.66)", "there is no rule 6.66"),
    ruled("[GLOSSARY.md](GLOSSARY.md)", "[GLOSSARY.md](GLOSSARY.md#peek)", "GLOSSARY.md#peek: no such heading or anchor"),
    ruled("| 0 | 6AAA | increment | 1 |", "| 0 | 6AAB | increment | 1 |", "the row should say P2, 0, 6AAA, increment, 1"),
    ruled("| <a id=\"r15-12\">15.12</a> | P12 | 5 | 1801 | new data | 1 |", "- <a id=\"r15-12\">15.12</a> P12", "11 rows of the pointer table, and 12 that are proved"),
    Trial("crates/records/specs/Refusals.antt", "catalogue_number NotListed = 14", "catalogue_number NotListed = 22", [RULES],
          ["docs/CARD.md:", "refusal 22 of the definitions has no rule 12.22"]),
    ruled("| a circuit that is not in the catalogue | |", "| a circuit that is not in the catalogue | |\n| <a id=\"r12-19\">12.19</a> | a peek | |",
          "rule 12.19 is about a refusal that no definition gives"),
    # a rule with no row; and what is wrong with rows: no number, a rule that is not there, another's anchor, another's section, the order, a number where none is
    ruled(None, "- <a id=\"r19-15\">19.15</a> More.\n", "rule 19.15 has no row in docs/RULES.md"),
    rowed("| [5.4](CARD.md#r5-4) a decrement", "| a decrement", "docs/RULES.md:", "a row begins with the number of its rule"),
    rowed("| [7.1](CARD.md#r7-1) one line", "| [7.91](CARD.md#r7-91) one line", "docs/RULES.md:", "rule 7.91 does not stand in docs/CARD.md"),
    rowed("| [8.1](CARD.md#r8-1) in this order", "| [8.1](CARD.md#r8-2) in this order", "docs/RULES.md:", "the link of rule 8.1 leads to r8-2"),
    rowed("| [3.2](CARD.md#r3-2) fresh", "| [4.2](CARD.md#r4-2) fresh", "docs/RULES.md:", "rule 4.2 stands in '3. The pointer's state'"),
    rowed("| [6.3](CARD.md#r6-3) its first", "| [6.1](CARD.md#r6-1) its first", "docs/RULES.md:", "rule 6.1 comes behind 6.2"),
    rowed("the mark (2.25)", "the mark (2.52)", "docs/RULES.md:", "there is no rule 2.52"),
    rowed(None, "| [19.1](CARD.md#r19-1) a | none | nothing | none |\n", "docs/RULES.md:", "rule 19.1 in 'Inside the card'"),
    rowed("## [13. How a call is refused]", "## [13. How calls are refused]", "and should be 1. The card's share of the path"),
    # a rule that no row gives a definition, and no word on it; a definition, of a promise and of demand 3, that no rule has
    rowed("flags above 15 | `records/Record.flags_refused` |", "flags above 15 | none |", "docs/CARD.md:", "rule 12.12 has no definition in docs/RULES.md"),
    rowed(", `settings/Settings.judged`", "", "settings/Settings.judged (crates/settings/specs/Settings.antt:", "stands in the row of no rule"),
    rowed(", `settles/Demand.log_of`", "", "settles/Demand.log_of (", "to which settles/proofs/Settled.demand_3 comes, stands in the row of no rule"),
    # rules named elsewhere
    named("lessons/README.md", "\nSee rule 4.99.\n", "there is no rule 4.99"),
    named("lessons/01-one-plain-path.bench", "# rules 4.1 to 4.98\n", "there is no rule 4.98"),
    named("docs/BENCH.md", "\n[CARD](CARD.md#r99-1)\n", "CARD.md#r99-1: no such rule"),
    named("lessons/12-parity.bench", "# rule 8.2; rules 4.1 to 4.6, rule 4.3 and CARD 8.3, version 1.2.33, 4.99 s\n"),
    named("docs/SPEED.md", "\n[rule 4.3](CARD.md#r4-3), [section 4](CARD.md#4-taking-one-pointer-word)\n"),
    # names in rows: one that is not there, one in brackets, one that the index has not; one that no table has
    Trial("docs/RULES.md", None, "| a | `sink/Peek.peek` | nothing | none |\n", [RULES], ["docs/RULES.md:", "`sink/Peek.peek` is unknown"]),
    Trial("docs/RULES.md", None, "| a | none | [`sink::sink`] | none |\n", [RULES], ["docs/RULES.md:", "`sink::sink` is written in brackets"]),
    Trial("docs/RULES.md", None, "| a | none | `card::card_parity` | none |\n", [RULES], ["docs/RULES-INDEX.md:", "names are missing", "`card::card_parity`"]),
    Trial("docs/RULES-INDEX.md", None, "\n[`case peek`](../README.md)\n", [RULES], ["docs/RULES-INDEX.md:", "`case peek` stands in no table"]),
    # an entry point that asks something of its caller
    Trial("crates/card/src/lib.rt", "fn card_settings_check(label: u8, trace: &[u8]) -> CardRefusal\n", "fn card_settings_check(label: u8, trace: &[u8]) -> CardRefusal\n    requires { label ≡ 1 }\n",
          [RULES, PROMISES], ["card::card_settings_check", "has a requires"]),
    # a library that rests on a program's part
    Trial("crates.txt", "\nprobe: copier", "\nprobe: programs copier", [RULES, PROMISES], ["crates.txt: probe rests on programs, a part of the program programs"]),
    Trial("crates.txt", "\ncard: parity", "\ncard: bench_say parity", [RULES, PROMISES], ["crates.txt: card rests on bench_say, a part of the program bench"]),
    # exports: a weaker promise; another meaning of a word in it; one that calls another function; one that is not exported; one of no function; something beside them
    exported("card_c", "ensures { result ≡ parity_of bytes.now }", "ensures { result < 256 }", "card_parity has other clauses than that of card"),
    exported("card_c", "ghost use Rattle.word.specs.Word.{reading_of};", "ghost use Rattle.parity.specs.Parity.{parity_of as reading_of};",
             "card_word_reading has other meanings than that of card"),
    exported("card_c", "card::card_trace_check(bytes)", "card::card_parity(bytes) == 0", "card_trace_check is no call of that of card"),
    exported("probe_sources_c", "#[unsafe(no_mangle)]\npub extern \"C\" fn probe_fresh_unit", "pub fn probe_fresh_unit", "probe_fresh_unit is not exported"),
    exported("probe_c", "fn probe_plain_word(value: u16)", "fn probe_plain_word(value: u32)", "probe_plain_word has other signature than that of probe"),
    exported("probe_sink_c", "fn probe_fresh_sink()", "fn probe_sink_fresh()", "probe_sink_fresh is no public function of probe_sink"),
    exported("probe_sink_c", "use settings::Settings;", "use card::CardRefusal as Settings;", "probe_sink has other types than that of probe_sink"),
    Trial("crates/probe_c/specs/Probe.antt", None, "pub peek : ℕ\npeek = 0\n", [RULES, PROMISES], ["crates/probe_c/specs/Probe.antt: probe_c has exports of probe", "nothing else"]),
    # what must be believed: another table; a statement that comes to an Inner file, and such a file to which none comes
    Trial("docs/READING.md", "| Statement |", "| Statements |", [BELIEVE], ["docs/READING.md:", "not that of the repository", "from here on: Statement"]),
    Trial("crates/parity/specs/InnerPeek.antt", None, PEEK, [BELIEVE], ["crates/parity/specs/InnerPeek.antt:", "is reached from card::card_parity"]),
    Trial("crates/parity/specs/Parity.antt", "\nparity_of [] = 0\n", "\nparity_of [] = peek\nuse Rattle.parity.specs.InnerPeek.{peek}\n", [BELIEVE],
          ["parity/InnerPeek.peek", "by parity/Parity.parity_of"]),
    allowed("word/specs/InnerPeek.antt", PEEK),
    # a picture, and a page, that crates.txt does not give
    Trial("docs/pictures/crates.svg", None, "\n", [CRATES], ["docs/pictures/crates.svg: not what"]),
    Trial("docs/CRATES.md", None, "\n", [CRATES], ["docs/CRATES.md: not what"]),
]

# comments in which a name could hide, or be made up; a `use` that could bring in anything; demand 3 with no row
UNREADABLE = [
    Trial("crates/parity/src/lib.rt", None, "/* pub fn peek() {} */\n", TESTS, ["crates/parity/src/lib.rt:", "a comment of more than a line"]),
    Trial("crates/promises/proofs/Sources.antt", None, "{- pub a : ℕ -}\n", TESTS, ["Sources.antt:", "a comment in braces"]),
    Trial("crates/parity/specs/Parity.antt", None, "use Rattle.word.specs.Word\n", [BELIEVE], ["crates/parity/specs/Parity.antt:", "a use that is not understood"]),
    Trial("docs/RULES.md", "| [19.4](CARD.md#r19-4) ", "| [19.3](CARD.md#r19-3) ", [RULES, BELIEVE, CRATES], ["docs/RULES.md:", "no theorem in a row of rule 19.4"]),
    Trial("crates.txt", "\ncard_c staticlib: ", "\nhost staticlib: ", TESTS, ["crates.txt: host is a static library, and not NAME_c of a library NAME"]),
]

wrong = []


def spoil(copy, trial):
    """Makes a trial in the copy. Answers with what the file was, nothing where there was none."""
    path = copy / trial.file
    before = path.read_text(encoding="utf-8") if path.exists() else None
    if trial.old is not None and before.count(trial.old) != 1:
        sys.exit(f"holes: the text of a trial stands {before.count(trial.old)} times in {trial.file}: {trial.old}")
    path.parent.mkdir(exist_ok=True)
    path.write_text((before or "") + trial.new if trial.old is None else before.replace(trial.old, trial.new), encoding="utf-8")
    return before


def run(copy, test):
    done = subprocess.run([sys.executable, copy / test], capture_output=True, text=True, timeout=300)
    return done.returncode, (done.stdout + done.stderr).splitlines()


def expect(copy, trials, status, what):
    """Runs the tests. Each trial must be said by those that it names, none by others, and the status must be this."""
    for test in TESTS:
        got, lines = run(copy, test)
        if got != (status if any(test in trial.said for trial in trials) else 0):
            wrong.append(f"{test} on {what}: status {got}")
        for trial in trials:
            said = any(all(word in line for word in trial.words) for line in lines)
            if said != (test in trial.said):
                wrong.append(f"{test} has {'a' if said else 'no'} line on {trial.file}, {trial.new.strip()!r}, with: {', '.join(trial.words)}")


def main():
    if len(sys.argv) != 1:
        print(__doc__.split("\n\n")[1], file=sys.stderr)
        return 2
    with tempfile.TemporaryDirectory() as folder:
        copy = pathlib.Path(folder) / "copy"
        shutil.copytree(ROOT, copy, ignore=shutil.ignore_patterns("target", "out", ".git", "__pycache__"))
        expect(copy, [], 0, "the repository as it is")
        for trial in UNREADABLE:
            before = spoil(copy, trial)
            expect(copy, [trial], 2, trial.file)
            (copy / trial.file).write_text(before, encoding="utf-8")
        for trial in TRIALS:
            spoil(copy, trial)
        expect(copy, TRIALS, 1, "all trials")
    for line in wrong:
        print(f"holes: {line}")
    refused = [trial for trial in TRIALS + UNREADABLE if trial.said]
    print(f"holes: {len(refused)} spoiled texts to be said, {len(TRIALS + UNREADABLE) - len(refused)} good ones to be passed, {len(wrong)} wrong")
    return 1 if wrong else 0


if __name__ == "__main__":
    sys.exit(main())
