//! Coverage: the names of the cases that a script can meet, how often each was,
//! and the functions that tell which were. They look at what went into a rule
//! and what came out of it; no rule depends on them.
//!
//! The bench is one of AU-4: the numbers in the names are its. What every unit
//! goes through is inlined, so that it costs little where nobody is told.

use super::rules::counts::{
    LAST_PLACE, MOST_ALARM_WORDS, MOST_ALIKE_WORDS, MOST_ENABLED_WORDS, MOST_EQUAL, MOST_INVALID_WORDS, MOST_WITHOUT,
};
use super::rules::{
    adjustment, columns, inverted, parity, trace_fault, violations, Answer, Checked, Expected, Given, Overhead, Place, Pointer,
    PointerReader, Refusal, Shape, Sink, Taken, Watch, Word, AU4, RECORD_LENGTH,
};
use std::collections::{HashMap, HashSet, VecDeque};
use std::fmt::Write as _;

/// Told the name of each case of a rule that is met, so that a test can ask
/// whether all were.
pub type Note<'a> = &'a mut dyn FnMut(&'static str);

/// The name of each case that a script can meet.
pub const NAMES: &[&str] = &[
    // The word
    "word.ndf-0000", "word.ndf-0001", "word.ndf-0010", "word.ndf-0011",
    "word.ndf-0100", "word.ndf-0101", "word.ndf-0110", "word.ndf-0111",
    "word.ndf-1000", "word.ndf-1001", "word.ndf-1010", "word.ndf-1011",
    "word.ndf-1100", "word.ndf-1101", "word.ndf-1110", "word.ndf-1111",
    "word.ss-00", "word.ss-01", "word.ss-10", "word.ss-11",
    "run.begins", "run.grows", "run.stops-at-3", "run.ended-at-2",
    "run.other-value-after-1", "run.other-value-after-2", "run.other-value-after-3",
    "row.two-alarm-words-ended", "row.seven-new-data-ended", "row.seven-invalid-ended",
    "wait.stops-at-3",
    // Its rules
    "1.fewer-than-three-in-normal", "1.fewer-than-three-in-alarm", "1.fewer-than-three-in-lost",
    "1.to-alarm-from-normal", "1.to-alarm-from-alarm", "1.to-alarm-from-lost", "1.count-stops-at-3",
    "2.same-offset", "2.other-offset", "2.from-alarm", "2.seventh", "2.eighth-to-lost",
    "2.in-lost", "2.in-lost-count-stops-at-8",
    "3.other-offset", "3.from-alarm", "3.from-lost",
    "4.plain", "4.plain-other-ndf",
    "4.increment", "4.increment-782-to-0", "4.decrement", "4.decrement-0-to-782",
    "4.increment-exact", "4.increment-by-three", "4.increment-two-against", "4.increment-most",
    "4.decrement-exact", "4.decrement-by-three", "4.decrement-two-against", "4.decrement-most",
    "4.adjusted-by-a-value-out-of-range",
    "5.in-alarm", "5.in-lost",
    "6.ndf-neither", "6.ndf-neither-and-ss", "6.normal-and-ss",
    "6.enabled-and-ss", "6.enabled-out-of-range", "6.enabled-and-ss-out-of-range",
    "6.bits-too-few", "6.bits-three-of-each", "6.bits-and-out-of-range",
    "6.out-of-range-in-alarm", "6.out-of-range-in-lost",
    "6.increment-too-early-by-3", "6.increment-too-early-by-2", "6.increment-too-early-by-1",
    "6.decrement-too-early-by-3", "6.decrement-too-early-by-2", "6.decrement-too-early-by-1",
    "6.in-normal", "6.in-alarm", "6.in-lost", "6.in-lost-count-stops-at-8",
    "6.eighth-to-lost-from-normal", "6.eighth-to-lost-from-alarm",
    // The unit
    "drop.new-data-nothing-held", "drop.new-data-held", "drop.found-nothing-held", "drop.found-held",
    "drop.parity-forgotten",
    "ended.none-by-increment", "ended.none-after-a-drop",
    "ended.one-in-done", "ended.one-in-done-none-begun", "ended.one-in-done-by-increment",
    "ended.one-in-done-by-decrement", "ended.one-in-done-by-alarm-word", "ended.one-in-done-by-invalid",
    "ended.one-in-unit", "ended.one-in-unit-from-h3", "ended.one-in-unit-after-a-drop",
    "ended.one-in-unit-by-alarm-or-invalid", "ended.two",
    "offset.0", "offset.1", "offset.521", "offset.522", "offset.781", "offset.782", "offset.other",
    "clears.held-count", "clears.parity", "clears.accepted-label", "clears.accepted-trace",
    "clears.dUNEQ", "clears.dTIM", "clears.dPLM", "clears.dRDI", "clears.message-place",
    "clears.message-run", "clears.count-to-48", "clears.label-run", "clears.run-of-00", "clears.run-of-remote",
    // The container
    "violations.no-last-parity",
    "violations.0", "violations.1", "violations.2", "violations.3", "violations.4",
    "violations.5", "violations.6", "violations.7", "violations.8",
    "columns.1", "columns.2", "columns.3", "columns.4", "columns.5", "columns.6", "columns.7", "columns.8",
    "columns.two-to-seven", "columns.all-eight",
    "returned.0", "returned.1", "returned.2", "returned.3", "returned.4", "returned.5",
    "returned.6", "returned.7", "returned.8", "returned.9-as-0", "returned.10-as-0",
    "returned.11-as-0", "returned.12-as-0", "returned.13-as-0", "returned.14-as-0", "returned.15-as-0",
    "label.run-begins", "label.run-of-1-to-3-ended", "label.run-of-4-ended", "label.run-of-5-ended",
    "label.run-stops-at-5", "label.accepted-first", "label.accepted-again", "label.accepted-other",
    "dPLM.set", "dPLM.cleared",
    "dPLM.not-yet-set-without-a-container", "dPLM.not-yet-cleared-without-a-container",
    "dUNEQ.set", "dUNEQ.cleared", "dUNEQ.not-set-by-four", "dUNEQ.not-cleared-by-four", "dUNEQ.run-stops-at-5",
    "dRDI.set", "dRDI.cleared", "dRDI.not-set-by-four", "dRDI.not-cleared-by-four", "dRDI.run-stops-at-5",
    "message.starts", "message.cut", "message.cut-at-15", "message.cut-ends-a-run",
    "message.stray", "message.stray-ends-a-run", "message.wrong", "message.wrong-ends-a-run",
    "message.good-first", "message.good-second", "message.good-third", "message.good-run-stops-at-3",
    "message.good-other-after-1-or-2", "message.good-other-after-3",
    "message.good-of-spaces", "message.good-not-of-20-to-7E",
    "count.to-0", "count.47-to-0", "count.48-to-0", "count.stops-at-48",
    "trace.accepted-first", "trace.accepted-again", "trace.accepted-other",
    "dTIM.set-by-a-message", "dTIM.cleared", "dTIM.stays-by-a-message",
    "dTIM.set-by-the-48th", "dTIM.stays-by-the-48th", "dTIM.set-by-one-after-48",
    // The unit's end
    "action.SSF", "action.none", "action.TSF-by-dUNEQ-alone", "action.TSF-by-dTIM-alone",
    "action.TSF-by-both", "action.AIS-by-dPLM-alone", "action.REI",
    "cause.none", "cause.cAIS", "cause.cLOP", "cause.cSSF", "cause.cUNEQ", "cause.cTIM", "cause.cRDI", "cause.cPLM",
    "cause.cSSF-with-cAIS", "cause.cSSF-with-cLOP", "cause.cRDI-with-cPLM",
    "cause.cAIS-alone", "cause.cLOP-alone", "cause.cSSF-alone", "cause.cRDI-alone", "cause.cPLM-alone",
    "cause.cPLM-not-monitored", "cause.alarm-not-reported", "cause.SSF-not-reported", "cause.SSF-not-monitored",
    "cause.dUNEQ-not-monitored", "cause.dTIM-not-monitored", "cause.dTIM-under-dUNEQ",
    "cause.dRDI-under-dUNEQ", "cause.dRDI-under-dTIM", "cause.dRDI-not-monitored", "cause.dRDI-not-reported",
    "cause.dPLM-under-dUNEQ", "cause.dPLM-under-dTIM",
    "unit.settled", "unit.unsettled",
    "unsettled.no-label-accepted", "unsettled.no-trace-accepted", "unsettled.by-dRDI-alone",
    "unsettled.by-the-expected-trace-alone", "unsettled.by-the-expected-label-alone",
    // Answers of the calls
    "container.made", "container.refused-4", "container.refused-5", "container.refused-20", "container.refused-21",
    "container.refused-6",
    "container.refused-4-before-5", "container.refused-4-before-20", "container.refused-4-before-21",
    "container.refused-4-before-6",
    "container.refused-5-before-6", "container.refused-20-before-6", "container.refused-21-before-6",
    "container.refused-second",
    "unit.made", "unit.refused-7",
    "sink.normal", "sink.alarm", "sink.lost",
    "sink.refused-4", "sink.refused-5", "sink.refused-20", "sink.refused-21", "sink.refused-1", "sink.refused-3",
    "sink.refused-4-before-5", "sink.refused-4-before-20", "sink.refused-4-before-21",
    "sink.refused-4-before-1", "sink.refused-4-before-3",
    "sink.refused-5-before-1", "sink.refused-20-before-1", "sink.refused-21-before-1",
    "sink.refused-5-before-3", "sink.refused-20-before-3", "sink.refused-21-before-3", "sink.refused-1-before-3",
    "sink.refused-3-held-alone", "sink.refused-3-done-alone",
    // The columns of one container after the other
    "columns.same-alone-again", "columns.another-alone-next", "columns.as-many-others-next",
    "columns.of-B3-in-its-own", "columns.of-B3-in-the-next-too", "columns.of-another-byte-in-the-next-alone",
    "columns.none-of-two", "columns.first-of-two-alone", "columns.second-of-two-alone",
    "columns.both-of-two-different", "columns.both-of-two-alike",
    "columns.none-when-fresh", "columns.none-after-alarm", "columns.none-after-lost",
    "columns.none-after-new-data", "columns.none-after-found",
    // Answers of the other calls
    "payload.of-none", "payload.of-done", "payload.of-unit", "payload.all-ones",
    "catalogue.none", "catalogue.some", "catalogue.512",
    "catalogue.refused-9", "catalogue.refused-10", "catalogue.refused-11", "catalogue.refused-4",
    "catalogue.refused-5", "catalogue.refused-20", "catalogue.refused-21", "catalogue.refused-12",
    "catalogue.refused-13",
    "catalogue.refused-5-in-a-later-record", "catalogue.refused-20-in-a-later-record",
    "catalogue.refused-21-in-a-later-record", "catalogue.refused-character-in-a-record-above-99",
    "catalogue.refused-10-before-5", "catalogue.refused-10-before-20", "catalogue.refused-10-before-21",
    "catalogue.refused-11-before-5", "catalogue.refused-11-before-20", "catalogue.refused-11-before-21",
    "catalogue.refused-4-before-5", "catalogue.refused-4-before-20", "catalogue.refused-4-before-21",
    "catalogue.refused-5-before-12", "catalogue.refused-20-before-12", "catalogue.refused-21-before-12",
    "catalogue.refused-9-before-13", "catalogue.refused-10-before-13", "catalogue.refused-11-before-13",
    "catalogue.refused-4-before-13", "catalogue.refused-5-before-13", "catalogue.refused-20-before-13",
    "catalogue.refused-21-before-13", "catalogue.refused-12-before-13",
    "catalogue.refused-5-before-a-later-record", "catalogue.refused-20-before-a-later-record",
    "catalogue.refused-21-before-a-later-record",
    "pairs.none-of-0-records", "pairs.none-of-1-record", "pairs.one-of-2-records", "pairs.one-of-2-records-alike",
    "pairs.all-and-no-repeat", "pairs.130816-and-no-repeat", "pairs.130816-and-a-repeat-at-the-last", "pairs.above-65535-and-a-repeat",
    "pairs.repeat-at-the-first", "pairs.repeat-at-the-last",
    "pairs.repeat-of-record-1", "pairs.repeat-of-the-record-before", "pairs.repeat-of-a-record-between",
    "pairs.repeat-in-the-last-record", "pairs.repeat-with-records-behind", "pairs.repeat-in-a-record-above-99",
    "pairs.repeat-with-a-third-alike", "pairs.repeat-inside-another", "pairs.repeat-before-another",
    "pairs.other-number-first-by-first",
    "pairs.0-behind-two-records", "pairs.0-behind-a-repeat", "pairs.0-before-a-repeat",
    "pairs.0-of-a-cut-file", "pairs.0-of-more-than-512-records",
    "lookup.found", "lookup.refused-14", "lookup.refused-5", "lookup.refused-20", "lookup.refused-21",
    "lookup.catalogue-refused",
    "list.listed", "list.refused-5", "list.refused-20", "list.refused-21", "list.refused",
    "import.none", "import.one", "import.some", "import.512", "import.of-an-export", "import.text-above-41472-bytes",
    "import.refused-15", "import.refused-16", "import.refused-17", "import.refused-18",
    "import.refused-11", "import.refused-4", "import.refused-5", "import.refused-20", "import.refused-21",
    "import.refused-12", "import.refused-13",
    "import.15-in-line-1", "import.15-in-a-later-line", "import.15-in-line-512",
    "import.16-in-line-1", "import.16-in-a-later-line", "import.16-in-line-512",
    "import.17-in-line-1", "import.17-in-a-later-line", "import.17-in-line-512",
    "import.18-by-513-LF", "import.18-by-bytes-behind-512-LF", "import.18-of-more-than-513", "import.18-of-empty-lines", "import.18-before-15", "import.18-before-too-long",
    "import.18-before-16", "import.18-before-17",
    // A line that is malformed by one thing alone
    "import.15-line-of-81", "import.15-line-above-81", "import.15-line-above-80-of-quotes", "import.15-no-LF", "import.15-no-LF-at-line-512", "import.15-no-LF-behind-CR-alone",
    "import.15-empty-line", "import.15-CR-alone", "import.15-CR-before-LF", "import.15-blank-at-the-start", "import.15-blank-at-the-end",
    "import.15-mark-at-the-start", "import.15-number-signed", "import.15-flags-hex",
    "import.15-number-quoted", "import.15-label-quoted", "import.15-flags-quoted",
    "import.15-number-empty", "import.15-number-of-5", "import.15-number-2F", "import.15-number-3A", "import.15-number-blank",
    "import.15-label-empty", "import.15-label-of-1", "import.15-label-of-3",
    "import.15-label-2F-first", "import.15-label-3A-first", "import.15-label-40-first",
    "import.15-label-47-first", "import.15-label-60-first", "import.15-label-67-first",
    "import.15-label-2F-second", "import.15-label-3A-second", "import.15-label-40-second",
    "import.15-label-47-second", "import.15-label-60-second", "import.15-label-67-second",
    "import.15-flags-empty", "import.15-flags-of-3", "import.15-flags-2F", "import.15-flags-3A", "import.15-flags-blank",
    "import.15-fewer-fields", "import.15-more-fields", "import.15-comma-at-the-end",
    "import.15-quote-alone", "import.15-quote-not-closed", "import.15-quote-doubled-at-the-end", "import.15-three-quotes-alone",
    "import.15-quote-inside", "import.15-blank-behind-the-quote", "import.15-more-behind-the-quote", "import.15-nothing-behind-the-quote",
    "import.15-unquoted-to-the-end", "import.15-unquoted-with-a-comma",
    // Its trace
    "import.16-empty", "import.16-of-15-or-fewer", "import.16-of-more-than-15", "import.16-with-a-quote", "import.16-blank-before-the-quote",
    "import.16-with-a-CR", "import.16-in-a-line-of-79", "import.16-in-a-line-of-80",
    "import.17-of-16", "import.17-of-16-when-halved", "import.17-of-more-than-16", "import.17-of-spaces", "import.17-of-quotes",
    "import.17-with-a-wrong-character", "import.17-in-a-line-of-79", "import.17-in-a-line-of-80",
    // Two faults
    "import.15-before-16", "import.15-before-17", "import.15-too-long-before-16", "import.15-too-long-before-17",
    "import.15-no-LF-before-16", "import.15-no-LF-before-17",
    "import.15-before-a-later-16", "import.15-before-a-later-17", "import.16-before-a-later-15",
    "import.16-before-a-later-17", "import.17-before-a-later-15", "import.17-before-a-later-16",
    "import.15-before-its-record", "import.16-before-its-record", "import.17-before-its-record",
    "import.15-before-an-earlier-record", "import.16-before-an-earlier-record", "import.17-before-an-earlier-record",
    "import.15-before-13", "import.16-before-13", "import.17-before-13",
    // What is read
    "import.number-of-1", "import.number-of-2", "import.number-of-3", "import.number-of-4", "import.number-leading-0",
    "import.label-digits", "import.label-capitals", "import.label-small", "import.label-mixed",
    "import.flags-of-1", "import.flags-of-2", "import.flags-leading-0",
    "import.trace-of-1", "import.trace-of-2-to-13", "import.trace-of-14", "import.trace-of-15", "import.trace-of-15-when-halved",
    "import.trace-of-15-quotes", "import.trace-comma", "import.trace-blank-first", "import.trace-blank-last",
    "import.trace-quote-alone", "import.trace-quote-first", "import.trace-quote-last", "import.trace-quote-between",
    "import.trace-two-quotes-together", "import.trace-quote-and-comma",
    // The catalogue's refusals over it
    "import.11-of-one-0", "import.11-of-more-0", "import.4-of-00", "import.4-of-FF", "import.4-of-ff",
    "import.12-of-16", "import.12-of-99", "import.21-of-none", "import.21-of-blanks",
    "import.5-of-CR", "import.5-behind-a-doubled-quote", "import.20-behind-a-doubled-quote",
    "import.13-written-alike", "import.13-written-otherwise",
    "import.12-before-a-later-record", "import.12-before-13",
    "export.none", "export.some", "export.512",
    "export.refused-9", "export.refused-10", "export.refused-11", "export.refused-4", "export.refused-5", "export.refused-20",
    "export.refused-21", "export.refused-12", "export.refused-13",
    "export.number-of-1", "export.number-of-2", "export.number-of-3", "export.number-of-4",
    "export.label-below-10", "export.label-letters", "export.flags-of-1", "export.flags-of-2",
    "export.trace-quote-first", "export.trace-quote-last", "export.trace-quote-between", "export.trace-of-15-quotes",
    "export.trace-comma", "export.trace-blank-first", "export.trace-blanks-last",
    "parity.asked", "check.no", "check.yes", "read.asked", "read.not-two-bytes",
    "defects.0", "defects.1", "defects.2", "defects.3", "defects.4",
    "tx.taken", "tx.refused-4", "tx.refused-5", "tx.refused-20", "tx.refused-21", "tx.refused-6",
    "tx.refused-4-before-5", "tx.refused-4-before-20", "tx.refused-4-before-21", "tx.refused-4-before-6",
    "tx.refused-5-before-6", "tx.refused-20-before-6", "tx.refused-21-before-6",
    "rx.taken", "rx.refused-4", "rx.refused-5", "rx.refused-20", "rx.refused-21",
    "rx.refused-4-before-5", "rx.refused-4-before-20", "rx.refused-4-before-21",
    "runs.one", "runs.more", "runs.none", "runs.too-many",
    "runs.behind-a-refused-tx", "runs.behind-a-refused-rx",
    // The characters of a trace that was the cause of a refusal, or was taken
    "trace.refused-first-place", "trace.refused-place-2", "trace.refused-place-3", "trace.refused-place-4",
    "trace.refused-place-5", "trace.refused-place-6", "trace.refused-place-7", "trace.refused-place-8",
    "trace.refused-place-9", "trace.refused-place-10", "trace.refused-place-11", "trace.refused-place-12",
    "trace.refused-place-13", "trace.refused-place-14", "trace.refused-last-place",
    "trace.refused-00", "trace.refused-1F", "trace.refused-7F", "trace.refused-80", "trace.refused-FF",
    "trace.below-before-above", "trace.above-before-below", "trace.below-before-below", "trace.above-before-above",
    "trace.spaces-but-one-below", "trace.spaces-but-one-above",
    "trace.taken-20", "trace.taken-7E",
    "trace.taken-spaces-but-the-first", "trace.taken-spaces-but-one-between", "trace.taken-spaces-but-the-last",
    // The lines of a script
    "script.not-understood", "script.comment", "script.blank",
    "script.comment-behind-blanks", "script.comment-behind-a-command", "script.comment-with-a-quote",
    "script.number-sign-in-a-word",
    "script.blanks-before", "script.blanks-between", "script.blanks-behind", "script.tab",
    "script.CR-dropped", "script.CR-alone", "script.CR-twice", "script.mark-dropped", "script.mark-later",
    "line.longest", "line.longest-with-CR", "line.longest-with-mark",
    "line.too-long", "line.too-long-by-CR", "line.too-long-by-mark", "line.too-long-comment",
    "quoted.empty", "quoted.short", "quoted.fifteen", "quoted.fifteen-when-halved", "quoted.quote", "quoted.blank",
    "quoted.blanks-alone", "quoted.number-sign", "quoted.refused-character",
    "quoted.sixteen", "quoted.sixteen-when-halved",
    "quoted.open", "quoted.more-behind", "quoted.no-trace-there", "quoted.inside-a-word",
    "hex.capitals", "hex.small", "hex.mixed",
];

/// How often each name was met.
pub struct Counts(HashMap<&'static str, u64>);

impl Counts {
    pub fn new() -> Self {
        Counts(NAMES.iter().map(|name| (*name, 0)).collect())
    }

    /// One more. Every name must stand in the list.
    pub fn note(&mut self, name: &'static str) {
        match self.0.get_mut(name) {
            Some(count) => *count += 1,
            None => panic!("{name} is not in the list of names"),
        }
    }

    /// The names that were not met.
    pub fn unmet(&self) -> Vec<&'static str> {
        NAMES.iter().copied().filter(|name| self.0[name] == 0).collect()
    }

    /// One line `name count` for each.
    pub fn text(&self) -> String {
        let mut text = String::new();
        for name in NAMES {
            let _ = writeln!(text, "{name} {}", self.0[name]);
        }
        text
    }
}

// ---------------------------------------------------------------------------
// The word
// ---------------------------------------------------------------------------

const NDF_NAMES: [&str; 16] = [
    "word.ndf-0000", "word.ndf-0001", "word.ndf-0010", "word.ndf-0011",
    "word.ndf-0100", "word.ndf-0101", "word.ndf-0110", "word.ndf-0111",
    "word.ndf-1000", "word.ndf-1001", "word.ndf-1010", "word.ndf-1011",
    "word.ndf-1100", "word.ndf-1101", "word.ndf-1110", "word.ndf-1111",
];
const SS_NAMES: [&str; 4] = ["word.ss-00", "word.ss-01", "word.ss-10", "word.ss-11"];

/// A word that was read.
#[inline]
pub fn word(shape: Shape, before: &PointerReader, word: Word, taken: Taken, after: &PointerReader, note: Note) {
    note(NDF_NAMES[usize::from(word.ndf)]);
    note(SS_NAMES[usize::from(word.ss)]);
    run(shape, before, word, note);

    if taken != Taken::AlarmWord && before.alarm_words == 2 {
        note("row.two-alarm-words-ended");
    }
    if taken != Taken::NewData && before.enabled_words == 7 {
        note("row.seven-new-data-ended");
    }
    if taken != Taken::Invalid && before.invalid_words == 7 {
        note("row.seven-invalid-ended");
    }

    match taken {
        Taken::AlarmWord => {
            note(match (after.alarm_words >= 3, before.state) {
                (true, Pointer::Normal(_)) => "1.to-alarm-from-normal",
                (true, Pointer::Alarm) => "1.to-alarm-from-alarm",
                (true, Pointer::Lost) => "1.to-alarm-from-lost",
                (false, Pointer::Normal(_)) => "1.fewer-than-three-in-normal",
                (false, Pointer::Alarm) => "1.fewer-than-three-in-alarm",
                (false, Pointer::Lost) => "1.fewer-than-three-in-lost",
            });
            if before.alarm_words == MOST_ALARM_WORDS {
                note("1.count-stops-at-3");
            }
        }
        Taken::NewData => {
            note(match before.state {
                Pointer::Lost if before.enabled_words == MOST_ENABLED_WORDS => "2.in-lost-count-stops-at-8",
                Pointer::Lost => "2.in-lost",
                _ if after.state == Pointer::Lost => "2.eighth-to-lost",
                Pointer::Normal(offset) if offset == word.value => "2.same-offset",
                Pointer::Normal(_) => "2.other-offset",
                Pointer::Alarm => "2.from-alarm",
            });
            if before.state != Pointer::Lost && after.enabled_words == 7 {
                note("2.seventh");
            }
        }
        Taken::Found => note(match before.state {
            Pointer::Normal(_) => "3.other-offset",
            Pointer::Alarm => "3.from-alarm",
            Pointer::Lost => "3.from-lost",
        }),
        Taken::Plain => note(if word.ndf == 0b0110 { "4.plain" } else { "4.plain-other-ndf" }),
        Taken::Increment | Taken::Decrement => {
            if let Pointer::Normal(offset) = before.state {
                adjusted(shape, offset, word, taken == Taken::Increment, note);
            }
        }
        Taken::Waiting => note(if before.state == Pointer::Alarm { "5.in-alarm" } else { "5.in-lost" }),
        Taken::Invalid => {
            note(why_invalid(shape, before, word));
            note(match (before.state, after.state) {
                (Pointer::Lost, _) if before.invalid_words == MOST_INVALID_WORDS => "6.in-lost-count-stops-at-8",
                (Pointer::Lost, _) => "6.in-lost",
                (Pointer::Normal(_), Pointer::Lost) => "6.eighth-to-lost-from-normal",
                (Pointer::Alarm, Pointer::Lost) => "6.eighth-to-lost-from-alarm",
                (Pointer::Normal(_), _) => "6.in-normal",
                (Pointer::Alarm, _) => "6.in-alarm",
            });
        }
    }
    // It stays where it is or goes up, unless it begins anew.
    if after.wait > 0 && after.wait == before.wait {
        note("wait.stops-at-3");
    }
}

/// The run of alike words.
#[inline]
fn run(shape: Shape, before: &PointerReader, word: Word, note: Note) {
    if !(word.is_normal() && word.in_range(shape)) {
        if before.run == 2 {
            note("run.ended-at-2");
        }
    } else if before.run > 0 && before.run_value == word.value {
        note(if before.run == MOST_ALIKE_WORDS { "run.stops-at-3" } else { "run.grows" });
    } else {
        note(match before.run {
            0 => "run.begins",
            1 => "run.other-value-after-1",
            2 => "run.other-value-after-2",
            _ => "run.other-value-after-3",
        });
    }
}

/// An increment, or else a decrement, from this offset.
#[inline]
fn adjusted(shape: Shape, offset: u16, word: Word, up: bool, note: Note) {
    let (i, d) = inverted(word.value, offset);
    note(match (up, offset) {
        (true, _) if offset == shape.last_value() => "4.increment-782-to-0",
        (true, _) => "4.increment",
        (false, 0) => "4.decrement-0-to-782",
        (false, _) => "4.decrement",
    });
    note(match (up, i, d) {
        (true, 5, 0) => "4.increment-exact",
        (true, 3, _) => "4.increment-by-three",
        (true, _, 2) => "4.increment-two-against",
        (true, _, _) => "4.increment-most",
        (false, 0, 5) => "4.decrement-exact",
        (false, _, 3) => "4.decrement-by-three",
        (false, 2, _) => "4.decrement-two-against",
        (false, _, _) => "4.decrement-most",
    });
    if !word.in_range(shape) {
        note("4.adjusted-by-a-value-out-of-range");
    }
}

/// The reason why a word is invalid.
fn why_invalid(shape: Shape, before: &PointerReader, word: Word) -> &'static str {
    match (word.kind, word.ss) {
        (0, 0b10) => "6.ndf-neither",
        (0, _) => "6.ndf-neither-and-ss",
        (1, 0b10) => match before.state {
            Pointer::Normal(offset) => match (adjustment(word.value, offset), before.wait) {
                (Some(Taken::Increment), 0) => "6.increment-too-early-by-3",
                (Some(Taken::Increment), 1) => "6.increment-too-early-by-2",
                (Some(Taken::Increment), _) => "6.increment-too-early-by-1",
                (Some(_), 0) => "6.decrement-too-early-by-3",
                (Some(_), 1) => "6.decrement-too-early-by-2",
                (Some(_), _) => "6.decrement-too-early-by-1",
                (None, _) if !word.in_range(shape) => "6.bits-and-out-of-range",
                (None, _) if inverted(word.value, offset).0 >= 3 => "6.bits-three-of-each",
                (None, _) => "6.bits-too-few",
            },
            Pointer::Alarm => "6.out-of-range-in-alarm",
            Pointer::Lost => "6.out-of-range-in-lost",
        },
        (1, _) => "6.normal-and-ss",
        (_, 0b10) => "6.enabled-out-of-range",
        (_, _) if word.in_range(shape) => "6.enabled-and-ss",
        (_, _) => "6.enabled-and-ss-out-of-range",
    }
}

// ---------------------------------------------------------------------------
// The unit
// ---------------------------------------------------------------------------

/// A unit that ended in alarm or lost, fed in this state.
pub fn cleared(before: &Sink, note: Note) {
    let under_way = |watch: Watch| watch.run > 0 && watch.run < MOST_EQUAL && watch.last;
    each(
        [
            (before.held > 0, "clears.held-count"),
            (before.parity.is_some(), "clears.parity"),
            (before.accepted_label.is_some(), "clears.accepted-label"),
            (before.accepted_trace.is_some(), "clears.accepted-trace"),
            (before.uneq.stands, "clears.dUNEQ"),
            (before.tim, "clears.dTIM"),
            (before.plm, "clears.dPLM"),
            (before.remote.stands, "clears.dRDI"),
            (before.place > 0, "clears.message-place"),
            (before.message_run > 0, "clears.message-run"),
            (before.without < MOST_WITHOUT, "clears.count-to-48"),
            (before.label_run > 0 && before.label_run < MOST_EQUAL, "clears.label-run"),
            (under_way(before.uneq), "clears.run-of-00"),
            (under_way(before.remote), "clears.run-of-remote"),
        ],
        note,
    );
}

/// A unit out of which containers were cut: the state in which it was fed,
/// where they stand, and the state then.
#[inline]
pub fn cut(before: &Sink, taken: Taken, places: &[Place], after: &Sink, note: Note) {
    if taken == Taken::NewData || taken == Taken::Found {
        note(match (taken, before.held) {
            (Taken::NewData, 0) => "drop.new-data-nothing-held",
            (Taken::NewData, _) => "drop.new-data-held",
            (_, 0) => "drop.found-nothing-held",
            (_, _) => "drop.found-held",
        });
        if before.parity.is_some() {
            note("drop.parity-forgotten");
        }
    }
    note(match (places, taken) {
        ([], Taken::Increment) => "ended.none-by-increment",
        ([], _) => "ended.none-after-a-drop",
        ([Place::Done], Taken::Increment) if after.held == 0 => "ended.one-in-done-none-begun",
        ([Place::Done], Taken::Increment) => "ended.one-in-done-by-increment",
        ([Place::Done], Taken::Decrement) => "ended.one-in-done-by-decrement",
        ([Place::Done], Taken::AlarmWord) => "ended.one-in-done-by-alarm-word",
        ([Place::Done], Taken::Invalid) => "ended.one-in-done-by-invalid",
        ([Place::Done], _) => "ended.one-in-done",
        ([Place::Unit(_)], Taken::Decrement) => "ended.one-in-unit-from-h3",
        ([Place::Unit(_)], Taken::NewData | Taken::Found) => "ended.one-in-unit-after-a-drop",
        ([Place::Unit(_)], Taken::AlarmWord | Taken::Invalid) => "ended.one-in-unit-by-alarm-or-invalid",
        ([Place::Unit(_)], _) => "ended.one-in-unit",
        _ => "ended.two",
    });
    if let Pointer::Normal(offset) = after.pointer.state {
        note(match offset {
            0 => "offset.0",
            1 => "offset.1",
            521 => "offset.521",
            522 => "offset.522",
            781 => "offset.781",
            782 => "offset.782",
            _ => "offset.other",
        });
    }
}

// ---------------------------------------------------------------------------
// The container
// ---------------------------------------------------------------------------

const VIOLATION_NAMES: [&str; 9] = [
    "violations.0", "violations.1", "violations.2", "violations.3", "violations.4",
    "violations.5", "violations.6", "violations.7", "violations.8",
];
const COLUMN_NAMES: [&str; 8] = [
    "columns.1", "columns.2", "columns.3", "columns.4", "columns.5", "columns.6", "columns.7", "columns.8",
];
const RETURNED_NAMES: [&str; 16] = [
    "returned.0", "returned.1", "returned.2", "returned.3", "returned.4", "returned.5",
    "returned.6", "returned.7", "returned.8", "returned.9-as-0", "returned.10-as-0",
    "returned.11-as-0", "returned.12-as-0", "returned.13-as-0", "returned.14-as-0", "returned.15-as-0",
];

/// A container that was examined: the state before it and after it.
#[inline]
pub fn container(shape: Shape, before: &Sink, container: &[u8], after: &Sink, note: Note) {
    let overhead = Overhead::of(shape, container);
    let columns = columns(overhead.b3, before.parity);
    note(match before.parity {
        Some(_) => VIOLATION_NAMES[usize::from(violations(columns))],
        None => "violations.no-last-parity",
    });
    match violations(columns) {
        0 => {}
        1 => note(COLUMN_NAMES[columns.leading_zeros() as usize]),
        8 => note("columns.all-eight"),
        _ => note("columns.two-to-seven"),
    }
    label(before, after, note);
    watch(&before.uneq, &after.uneq, &UNEQ_NAMES, note);
    watch(&before.remote, &after.remote, &REMOTE_NAMES, note);
    message(before, overhead.j1, after, note);
    note(RETURNED_NAMES[usize::from(overhead.returned_bits())]);
}

#[inline]
fn label(before: &Sink, after: &Sink, note: Note) {
    let label = after.label;
    if before.label_run > 0 && before.label == label {
        if before.label_run == MOST_EQUAL {
            note("label.run-stops-at-5");
        }
    } else {
        note(match before.label_run {
            0 => "label.run-begins",
            1..=3 => "label.run-of-1-to-3-ended",
            4 => "label.run-of-4-ended",
            _ => "label.run-of-5-ended",
        });
    }
    if after.label_run == MOST_EQUAL {
        note(match before.accepted_label {
            None => "label.accepted-first",
            Some(accepted) if accepted == label => "label.accepted-again",
            Some(_) => "label.accepted-other",
        });
    }
    match (before.plm, after.plm) {
        (false, true) => note("dPLM.set"),
        (true, false) => note("dPLM.cleared"),
        _ => {}
    }
}

/// A defect set by five and cleared by five: set, cleared, not set by four, not
/// cleared by four, and its run at its stop.
type WatchNames = [&'static str; 5];
const UNEQ_NAMES: WatchNames = [
    "dUNEQ.set", "dUNEQ.cleared", "dUNEQ.not-set-by-four", "dUNEQ.not-cleared-by-four", "dUNEQ.run-stops-at-5",
];
const REMOTE_NAMES: WatchNames = [
    "dRDI.set", "dRDI.cleared", "dRDI.not-set-by-four", "dRDI.not-cleared-by-four", "dRDI.run-stops-at-5",
];

#[inline]
fn watch(before: &Watch, after: &Watch, names: &WatchNames, note: Note) {
    let [set, cleared, not_set, not_cleared, stops] = *names;
    match (before.stands, after.stands) {
        (false, true) => note(set),
        (true, false) => note(cleared),
        _ => {}
    }
    if before.run == 4 && after.run == 1 {
        match (before.stands, before.last) {
            (false, true) => note(not_set),
            (true, false) => note(not_cleared),
            _ => {}
        }
    }
    if before.run == MOST_EQUAL && after.run == MOST_EQUAL {
        note(stops);
    }
}

/// The trace: the byte in its message, then what a good one does, or the
/// container without one.
#[inline]
fn message(before: &Sink, j1: u8, after: &Sink, note: Note) {
    // Only a good message puts the count to 0.
    let good = after.without == 0;
    let ends_a_run = before.message_run > 0;
    if j1 & 0x80 != 0 {
        note(match before.place {
            0 => "message.starts",
            _ if ends_a_run => "message.cut-ends-a-run",
            LAST_PLACE => "message.cut-at-15",
            _ => "message.cut",
        });
    } else if before.place == 0 {
        note(if ends_a_run { "message.stray-ends-a-run" } else { "message.stray" });
    } else if before.place == LAST_PLACE && !good {
        note(if ends_a_run { "message.wrong-ends-a-run" } else { "message.wrong" });
    }
    if good {
        good_message(before, after, note);
    } else if after.without == MOST_WITHOUT {
        note(match (before.without < MOST_WITHOUT, before.tim) {
            (true, false) => "dTIM.set-by-the-48th",
            (true, true) => "dTIM.stays-by-the-48th",
            (false, false) => "dTIM.set-by-one-after-48",
            (false, true) => "count.stops-at-48",
        });
    }
}

fn good_message(before: &Sink, after: &Sink, note: Note) {
    let equal = before.characters == after.characters;
    note(match before.message_run {
        0 => "message.good-first",
        1 if equal => "message.good-second",
        2 if equal => "message.good-third",
        _ if equal => "message.good-run-stops-at-3",
        1 | 2 => "message.good-other-after-1-or-2",
        _ => "message.good-other-after-3",
    });
    // A trace that comes is not refused.
    match number_for(&after.characters) {
        0 => {}
        21 => note("message.good-of-spaces"),
        _ => note("message.good-not-of-20-to-7E"),
    }
    note(match before.without {
        MOST_WITHOUT => "count.48-to-0",
        47 => "count.47-to-0",
        _ => "count.to-0",
    });
    // Accepted: the run has come to its stop.
    if after.message_run >= 3 {
        note(match before.accepted_trace {
            None => "trace.accepted-first",
            Some(accepted) if accepted == after.characters => "trace.accepted-again",
            Some(_) => "trace.accepted-other",
        });
        match (before.tim, after.tim) {
            (false, true) => note("dTIM.set-by-a-message"),
            (true, false) => note("dTIM.cleared"),
            (true, true) => note("dTIM.stays-by-a-message"),
            (false, false) => {}
        }
    }
}

// ---------------------------------------------------------------------------
// The columns of one container after the other
// ---------------------------------------------------------------------------

/// Where B3 stands in a container of the bench.
const B3: usize = AU4.columns;

/// How many containers are remembered of those that the source ended: more than
/// lie between it and the sink.
const MOST_SENT: usize = 4;

/// Why there is no last parity, or was none.
#[derive(Clone, Copy, PartialEq)]
enum Without {
    Fresh,
    Alarm,
    Lost,
    NewData,
    Found,
}

/// How a container that was handed back differs from the one that was sent.
#[derive(Clone, Copy)]
enum Damage {
    None,
    /// The byte at this place, by these bits.
    One(usize, u8),
    /// More than that, or it is none of those remembered.
    Other,
}

/// A container that was handed back.
struct Handed {
    columns: u8,
    parity: u8,
    damage: Damage,
}

/// What the bench remembers of the units before, for these cases alone.
pub struct Remembered {
    sent: VecDeque<Vec<u8>>,
    last: Option<Handed>,
    without: Without,
}

impl Remembered {
    pub fn nothing() -> Self {
        Remembered {
            sent: VecDeque::new(),
            last: None,
            without: Without::Fresh,
        }
    }

    /// A container that the source ended.
    pub fn sent(&mut self, container: Vec<u8>) {
        self.sent.truncate(MOST_SENT - 1);
        self.sent.push_front(container);
    }

    fn damage(&self, container: &[u8]) -> Damage {
        for sent in &self.sent {
            let mut differ = container.iter().zip(sent).enumerate().filter(|(_, (one, other))| one != other);
            match (differ.next(), differ.next()) {
                (None, _) => return Damage::None,
                (Some((place, (one, other))), None) => return Damage::One(place, one ^ other),
                _ => {}
            }
        }
        Damage::Other
    }

    /// A unit that was fed: the state before it and after it, and the containers
    /// that ended, each with its columns.
    pub fn fed(&mut self, before: &Sink, after: &Sink, ended: &[(u8, &[u8])], note: Note) {
        let dropped = match (before.pointer.state, after.pointer.state) {
            (_, Pointer::Alarm) => Some(Without::Alarm),
            (_, Pointer::Lost) if self.without != Without::Fresh || self.last.is_some() => Some(Without::Lost),
            (Pointer::Normal(_), Pointer::Normal(_)) if after.pointer.enabled_words > 0 => Some(Without::NewData),
            (Pointer::Normal(one), Pointer::Normal(other)) if one != other && after.pointer.run == MOST_ALIKE_WORDS => {
                Some(Without::Found)
            }
            _ => None,
        };
        let mut known = before.parity.is_some() && dropped.is_none();
        self.without = dropped.unwrap_or(self.without);
        for (columns, container) in ended {
            let damage = self.damage(container);
            if known {
                self.next(*columns, damage, note);
            } else {
                self.first(container[B3], note);
            }
            known = true;
            self.last = Some(Handed {
                columns: *columns,
                parity: parity(container),
                damage,
            });
        }
        if let [(first, _), (second, _)] = ended {
            note(match (first, second) {
                (0, 0) => "columns.none-of-two",
                (_, 0) => "columns.first-of-two-alone",
                (0, _) => "columns.second-of-two-alone",
                _ if first == second => "columns.both-of-two-alike",
                _ => "columns.both-of-two-different",
            });
        }
    }

    /// A container with no last parity: one that was kept, or 00 in its place,
    /// would have given it columns.
    fn first(&self, b3: u8, note: Note) {
        if b3 == 0x00 || self.last.as_ref().map_or(false, |last| last.parity == b3) {
            return;
        }
        note(match self.without {
            Without::Fresh => "columns.none-when-fresh",
            Without::Alarm => "columns.none-after-alarm",
            Without::Lost => "columns.none-after-lost",
            Without::NewData => "columns.none-after-new-data",
            Without::Found => "columns.none-after-found",
        });
    }

    /// A container behind the last.
    fn next(&self, columns: u8, damage: Damage, note: Note) {
        if let Damage::One(B3, with) = damage {
            if columns == with {
                note("columns.of-B3-in-its-own");
            }
        }
        let Some(last) = &self.last else { return };
        match (violations(last.columns), violations(columns)) {
            (1, 1) if last.columns == columns => note("columns.same-alone-again"),
            (1, 1) => note("columns.another-alone-next"),
            (2.., count) if count == violations(last.columns) && last.columns != columns => note("columns.as-many-others-next"),
            _ => {}
        }
        match (last.damage, damage) {
            (Damage::One(B3, with), Damage::None) if last.columns == with && columns == with => {
                note("columns.of-B3-in-the-next-too");
            }
            (Damage::One(place, with), Damage::None) if place != B3 && last.columns == 0x00 && columns == with => {
                note("columns.of-another-byte-in-the-next-alone");
            }
            _ => {}
        }
    }
}

// ---------------------------------------------------------------------------
// The unit's end
// ---------------------------------------------------------------------------

/// The state at a unit's end, and what is answered.
#[inline]
pub fn end(s: &Sink, expected: &Expected, answer: &Answer, note: Note) {
    let Answer { ssf, tsf, ais, settled, causes, .. } = *answer;
    let [uneq, tim, plm, remote] = answer.defects;
    let [c_ais, c_lop, c_ssf, c_uneq, c_tim, c_rdi, c_plm] = causes;
    let Expected { monitored, rdi_reported, ssf_reported, ais_reported, .. } = *expected;
    let quiet = !ssf && !ais && !remote;
    let other_label = s.accepted_label.is_some() && s.accepted_label != Some(expected.label);
    let other_trace = s.accepted_trace.is_some() && s.accepted_trace != Some(expected.trace);
    // The expected label was changed since the last container.
    let stale = s.accepted_label.is_some() && other_label != plm;
    each(
        [
            (ssf, "action.SSF"),
            (!tsf && !ais, "action.none"),
            (uneq && !tim, "action.TSF-by-dUNEQ-alone"),
            (tim && !uneq, "action.TSF-by-dTIM-alone"),
            (tim && uneq, "action.TSF-by-both"),
            (plm && !tsf, "action.AIS-by-dPLM-alone"),
            (answer.ended.iter().any(|one| one.violations() > 0), "action.REI"),
            (!causes.contains(&true), "cause.none"),
            (c_ais, "cause.cAIS"),
            (c_lop, "cause.cLOP"),
            (c_ssf, "cause.cSSF"),
            (c_uneq, "cause.cUNEQ"),
            (c_tim, "cause.cTIM"),
            (c_rdi, "cause.cRDI"),
            (c_plm, "cause.cPLM"),
            (c_ssf && c_ais, "cause.cSSF-with-cAIS"),
            (c_ssf && c_lop, "cause.cSSF-with-cLOP"),
            (c_rdi && c_plm, "cause.cRDI-with-cPLM"),
            (c_ais && !c_ssf, "cause.cAIS-alone"),
            (c_lop && !c_ssf, "cause.cLOP-alone"),
            (c_ssf && !c_ais && !c_lop, "cause.cSSF-alone"),
            (c_rdi && !c_plm, "cause.cRDI-alone"),
            (c_plm && !c_rdi, "cause.cPLM-alone"),
            (c_plm && !monitored, "cause.cPLM-not-monitored"),
            (s.pointer.state == Pointer::Alarm && !ais_reported, "cause.alarm-not-reported"),
            (ssf && monitored && !ssf_reported, "cause.SSF-not-reported"),
            (ssf && !monitored && ssf_reported, "cause.SSF-not-monitored"),
            (uneq && !monitored, "cause.dUNEQ-not-monitored"),
            (tim && !uneq && !monitored, "cause.dTIM-not-monitored"),
            (tim && uneq && monitored, "cause.dTIM-under-dUNEQ"),
            (remote && uneq && !tim && monitored && rdi_reported, "cause.dRDI-under-dUNEQ"),
            (remote && tim && !uneq && monitored && rdi_reported, "cause.dRDI-under-dTIM"),
            (remote && !tsf && !monitored && rdi_reported, "cause.dRDI-not-monitored"),
            (remote && !tsf && monitored && !rdi_reported, "cause.dRDI-not-reported"),
            (plm && uneq && !tim, "cause.dPLM-under-dUNEQ"),
            (plm && tim && !uneq, "cause.dPLM-under-dTIM"),
            (settled, "unit.settled"),
            (!settled, "unit.unsettled"),
            (quiet && s.accepted_label.is_none(), "unsettled.no-label-accepted"),
            (quiet && s.accepted_trace.is_none(), "unsettled.no-trace-accepted"),
            (!ssf && !ais && remote, "unsettled.by-dRDI-alone"),
            (quiet && other_trace, "unsettled.by-the-expected-trace-alone"),
            (quiet && other_label, "unsettled.by-the-expected-label-alone"),
            (stale && !plm, "dPLM.not-yet-set-without-a-container"),
            (stale && plm, "dPLM.not-yet-cleared-without-a-container"),
        ],
        note,
    );
}

/// The names of those that were met.
#[inline]
fn each<const COUNT: usize>(cases: [(bool, &'static str); COUNT], note: Note) {
    for (met, name) in cases {
        if met {
            note(name);
        }
    }
}

// ---------------------------------------------------------------------------
// Answers of the bench's calls
// ---------------------------------------------------------------------------

/// The number of a refusal, 0 where there is none.
fn number_in(refused: Option<&Refusal>) -> u8 {
    refused.map_or(0, |refusal| refusal.number)
}

/// The number of a trace's fault by itself, 0 where it has none.
fn number_for(trace: &[u8; 15]) -> u8 {
    number_in(trace_fault(trace).as_ref())
}

/// A container that the source was asked for with these settings, with so many
/// in the queue: what it was refused by, and the faults that it came before.
pub fn container_asked(refused: Option<&Refusal>, given: &Given, trace: &[u8; 15], queued: usize, note: Note) {
    let (number, in_trace) = (number_in(refused), number_for(trace));
    let too_many = given.violations > 8;
    note(match number {
        0 => "container.made",
        4 => "container.refused-4",
        5 => "container.refused-5",
        20 => "container.refused-20",
        21 => "container.refused-21",
        _ => "container.refused-6",
    });
    each(
        [
            (number == 4 && in_trace == 5, "container.refused-4-before-5"),
            (number == 4 && in_trace == 20, "container.refused-4-before-20"),
            (number == 4 && in_trace == 21, "container.refused-4-before-21"),
            (number == 4 && too_many, "container.refused-4-before-6"),
            (number == 5 && too_many, "container.refused-5-before-6"),
            (number == 20 && too_many, "container.refused-20-before-6"),
            (number == 21 && too_many, "container.refused-21-before-6"),
            (number > 0 && queued == 1, "container.refused-second"),
        ],
        note,
    );
    refused_trace(number, trace, note);
}

/// The state in which a unit that was not refused left the sink, and how many
/// defects are named.
pub fn fed(state: Pointer, defects: &[bool; 4], note: Note) {
    note(match state {
        Pointer::Normal(_) => "sink.normal",
        Pointer::Alarm => "sink.alarm",
        Pointer::Lost => "sink.lost",
    });
    const NUMBERS: [&str; 5] = ["defects.0", "defects.1", "defects.2", "defects.3", "defects.4"];
    note(NUMBERS[defects.iter().filter(|stands| **stands).count()]);
}

/// The sink's refusal, and the faults that it came before: of the settings, and
/// of the lengths of unit, held and done buffer.
pub fn refused(refusal: &Refusal, expected: &Expected, [unit, held, done]: [usize; 3], note: Note) {
    let (number, in_trace) = (refusal.number, number_for(&expected.trace));
    let unit_wrong = unit != AU4.unit();
    let held_wrong = held != AU4.container();
    let done_wrong = done != AU4.container();
    let buffers_wrong = held_wrong || done_wrong;
    note(match number {
        4 => "sink.refused-4",
        5 => "sink.refused-5",
        20 => "sink.refused-20",
        21 => "sink.refused-21",
        1 => "sink.refused-1",
        _ => "sink.refused-3",
    });
    each(
        [
            (number == 4 && in_trace == 5, "sink.refused-4-before-5"),
            (number == 4 && in_trace == 20, "sink.refused-4-before-20"),
            (number == 4 && in_trace == 21, "sink.refused-4-before-21"),
            (number == 4 && unit_wrong, "sink.refused-4-before-1"),
            (number == 4 && buffers_wrong, "sink.refused-4-before-3"),
            (number == 5 && unit_wrong, "sink.refused-5-before-1"),
            (number == 20 && unit_wrong, "sink.refused-20-before-1"),
            (number == 21 && unit_wrong, "sink.refused-21-before-1"),
            (number == 5 && buffers_wrong, "sink.refused-5-before-3"),
            (number == 20 && buffers_wrong, "sink.refused-20-before-3"),
            (number == 21 && buffers_wrong, "sink.refused-21-before-3"),
            (number == 1 && buffers_wrong, "sink.refused-1-before-3"),
            (number == 3 && !done_wrong, "sink.refused-3-held-alone"),
            (number == 3 && !held_wrong, "sink.refused-3-done-alone"),
        ],
        note,
    );
    refused_trace(number, &expected.trace, note);
}

/// The payload call, of the container that stood there.
pub fn payload_asked(place: Option<Place>, ais: bool, note: Note) {
    note(match place {
        None => "payload.of-none",
        Some(Place::Done) => "payload.of-done",
        Some(Place::Unit(_)) => "payload.of-unit",
    });
    if ais {
        note("payload.all-ones");
    }
}

/// The check of a catalogue, the pairs that it compared, and the faults that its
/// refusal came before.
pub fn checked(checked: &Checked, bytes: &[u8], note: Note) {
    let answer = &checked.answer;
    compared(checked, bytes, note);
    note(match answer {
        Ok(0) => "catalogue.none",
        Ok(512) => "catalogue.512",
        Ok(_) => "catalogue.some",
        Err(refusal) => match refusal.number {
            9 => "catalogue.refused-9",
            10 => "catalogue.refused-10",
            11 => "catalogue.refused-11",
            4 => "catalogue.refused-4",
            5 => "catalogue.refused-5",
            20 => "catalogue.refused-20",
            21 => "catalogue.refused-21",
            12 => "catalogue.refused-12",
            _ => "catalogue.refused-13",
        },
    });
    // Those that stand before a trace's faults in the order, and these.
    let Err(Refusal { number: number @ (10 | 11 | 4 | 5 | 20 | 21), places }) = answer else {
        return;
    };
    let records: Vec<&[u8]> = bytes.chunks(RECORD_LENGTH).collect();
    let (this, later) = (records[places[0] - 1], &records[places[0]..]);
    let mut trace = [0; 15];
    trace.copy_from_slice(&this[5..20]);
    let (number, in_trace) = (*number, number_for(&trace));
    let flags_wrong = this[20] > 15;
    // A number of a record and one of a character that are not the same.
    let apart = places[0] > 1 && places.get(1) != Some(&places[0]);
    let later_wrong = later.iter().any(|record| wrong_record(record));
    each(
        [
            (number == 5 && apart, "catalogue.refused-5-in-a-later-record"),
            (number == 20 && apart, "catalogue.refused-20-in-a-later-record"),
            (number == 21 && apart, "catalogue.refused-21-in-a-later-record"),
            (places.len() == 2 && places[0] > 99, "catalogue.refused-character-in-a-record-above-99"),
            (number == 10 && in_trace == 5, "catalogue.refused-10-before-5"),
            (number == 10 && in_trace == 20, "catalogue.refused-10-before-20"),
            (number == 10 && in_trace == 21, "catalogue.refused-10-before-21"),
            (number == 11 && in_trace == 5, "catalogue.refused-11-before-5"),
            (number == 11 && in_trace == 20, "catalogue.refused-11-before-20"),
            (number == 11 && in_trace == 21, "catalogue.refused-11-before-21"),
            (number == 4 && in_trace == 5, "catalogue.refused-4-before-5"),
            (number == 4 && in_trace == 20, "catalogue.refused-4-before-20"),
            (number == 4 && in_trace == 21, "catalogue.refused-4-before-21"),
            (number == 5 && flags_wrong, "catalogue.refused-5-before-12"),
            (number == 20 && flags_wrong, "catalogue.refused-20-before-12"),
            (number == 21 && flags_wrong, "catalogue.refused-21-before-12"),
            (number == 5 && later_wrong, "catalogue.refused-5-before-a-later-record"),
            (number == 20 && later_wrong, "catalogue.refused-20-before-a-later-record"),
            (number == 21 && later_wrong, "catalogue.refused-21-before-a-later-record"),
        ],
        note,
    );
    refused_trace(number, &trace, note);
}

/// The pairs of traces that a check compared: all, up to the first repeat, or
/// none.
fn compared(checked: &Checked, bytes: &[u8], note: Note) {
    // Those that are whole; a file that is refused by its length may have more.
    let traces: Vec<&[u8]> = bytes.chunks_exact(RECORD_LENGTH).map(|record| &record[5..20]).collect();
    match &checked.answer {
        Ok(count) => note(match (count, checked.pairs) {
            (0, _) => "pairs.none-of-0-records",
            (1, _) => "pairs.none-of-1-record",
            (2, _) => "pairs.one-of-2-records",
            (_, 130_816) => "pairs.130816-and-no-repeat",
            _ => "pairs.all-and-no-repeat",
        }),
        Err(Refusal { number: 13, places }) => up_to_a_repeat(places[0], places[1], checked.pairs, &traces, note),
        Err(refusal) => none_compared(refusal, &traces, note),
    }
}

/// The pairs up to that of these two records, counted from 1: where it stands
/// among all, and what more is repeated behind it.
fn up_to_a_repeat(later: usize, first: usize, pairs: usize, traces: &[&[u8]], note: Note) {
    let count = traces.len();
    let most = count * (count - 1) / 2;
    // Each repeat, the first record that has its trace before the later one.
    let mut firsts = HashMap::new();
    let mut repeats = Vec::new();
    for (place, trace) in (1..).zip(traces) {
        match firsts.get(trace) {
            Some(of) => repeats.push((*of, place)),
            None => {
                firsts.insert(trace, place);
            }
        }
    }
    let mut all_of = repeats.iter().map(|(of, _)| *of);
    // The scan that takes the first records in their order, and for each the
    // later ones: it may end at another pair, and after another number of them.
    let first_by_first =
        repeats.iter().min().map_or(most, |(of, place)| (1..*of).map(|before| count - before).sum::<usize>() + place - of);
    let last = pairs == most;
    each(
        [
            (count == 2, "pairs.one-of-2-records-alike"),
            (pairs == 130_816, "pairs.130816-and-a-repeat-at-the-last"),
            (pairs > 65_535 && !last, "pairs.above-65535-and-a-repeat"),
            (pairs == 1 && !last, "pairs.repeat-at-the-first"),
            (pairs > 1 && last, "pairs.repeat-at-the-last"),
            (first == 1 && later > 2, "pairs.repeat-of-record-1"),
            (first > 1 && first == later - 1 && !last, "pairs.repeat-of-the-record-before"),
            (first > 1 && first < later - 1, "pairs.repeat-of-a-record-between"),
            (later == count && !last, "pairs.repeat-in-the-last-record"),
            (later < count, "pairs.repeat-with-records-behind"),
            (later > 99, "pairs.repeat-in-a-record-above-99"),
            (all_of.clone().filter(|of| *of == first).count() > 1, "pairs.repeat-with-a-third-alike"),
            (all_of.clone().any(|of| of < first), "pairs.repeat-inside-another"),
            (all_of.any(|of| of > first), "pairs.repeat-before-another"),
            (pairs != first_by_first, "pairs.other-number-first-by-first"),
        ],
        note,
    );
}

/// No pair: whether records stand in front of what was refused that could have
/// been compared, and whether there is a repeat too.
fn none_compared(refusal: &Refusal, traces: &[&[u8]], note: Note) {
    let number = refusal.number;
    let repeated = |traces: &[&[u8]]| {
        let mut met = HashSet::new();
        traces.iter().any(|trace| !met.insert(*trace))
    };
    let in_file = repeated(traces);
    // A length is refused before any record is seen.
    let length = number == 9;
    let in_front = if length { &[] } else { &traces[..refusal.places[0] - 1] };
    let repeat_in_front = repeated(in_front);
    each(
        [
            (in_front.len() > 1 && !repeat_in_front, "pairs.0-behind-two-records"),
            (repeat_in_front, "pairs.0-behind-a-repeat"),
            (!length && in_file && !repeat_in_front, "pairs.0-before-a-repeat"),
            (length && (2..=512).contains(&traces.len()), "pairs.0-of-a-cut-file"),
            (length && traces.len() > 512, "pairs.0-of-more-than-512-records"),
            (length && in_file, "catalogue.refused-9-before-13"),
            (number == 10 && in_file, "catalogue.refused-10-before-13"),
            (number == 11 && in_file, "catalogue.refused-11-before-13"),
            (number == 4 && in_file, "catalogue.refused-4-before-13"),
            (number == 5 && in_file, "catalogue.refused-5-before-13"),
            (number == 20 && in_file, "catalogue.refused-20-before-13"),
            (number == 21 && in_file, "catalogue.refused-21-before-13"),
            (number == 12 && in_file, "catalogue.refused-12-before-13"),
        ],
        note,
    );
}

/// Whether a record has a fault by itself: of its mark, number, label, trace or
/// flags.
fn wrong_record(record: &[u8]) -> bool {
    let circuit = u16::from_be_bytes([record[2], record[3]]);
    let trace = &record[5..20];
    record[..2] != [0x5A, 0x4D]
        || !(1..=9999).contains(&circuit)
        || matches!(record[4], 0x00 | 0xFF)
        || unprintable(trace)
        || trace == [b' '; 15]
        || record[20] > 15
}

/// A lookup, and its refusal.
pub fn looked_up(refused: Option<&Refusal>, note: Note) {
    note(match number_in(refused) {
        0 => "lookup.found",
        14 => "lookup.refused-14",
        5 => "lookup.refused-5",
        20 => "lookup.refused-20",
        21 => "lookup.refused-21",
        _ => "lookup.catalogue-refused",
    });
}

/// A listing, and the refusal that it prints.
pub fn listed(refused: Option<&Refusal>, note: Note) {
    note(match number_in(refused) {
        0 => "list.listed",
        5 => "list.refused-5",
        20 => "list.refused-20",
        21 => "list.refused-21",
        _ => "list.refused",
    });
}

// ---------------------------------------------------------------------------
// The spreadsheet
// ---------------------------------------------------------------------------

/// A line of a text, taken apart here once more: these functions do not ask the
/// rules.
struct SheetLine<'a> {
    bytes: &'a [u8],
    ended: bool,
    /// What stands between commas. Those are none that stand behind an odd number
    /// of quotes in a third field that begins with one.
    fields: Vec<&'a [u8]>,
}

impl<'a> SheetLine<'a> {
    fn new(bytes: &'a [u8], ended: bool) -> Self {
        let mut fields = Vec::new();
        let (mut from, mut inside) = (0, false);
        for (at, byte) in bytes.iter().enumerate() {
            match byte {
                b'"' if fields.len() == 2 && bytes[from] == b'"' => inside = !inside,
                b',' if !inside => {
                    fields.push(&bytes[from..at]);
                    from = at + 1;
                }
                _ => {}
            }
        }
        fields.push(&bytes[from..]);
        SheetLine { bytes, ended, fields }
    }

    /// A field as it stands; nothing where there is none.
    fn field(&self, place: usize) -> &'a [u8] {
        self.fields.get(place).copied().unwrap_or(b"")
    }

    /// What stands between the quotes of the trace, where it has them and those
    /// in it are doubled.
    fn quoted(&self) -> Option<&'a [u8]> {
        let [b'"', inside @ .., b'"'] = self.field(2) else {
            return None;
        };
        inside.split(|byte| *byte != b'"').all(|quotes| quotes.len() % 2 == 0).then_some(inside)
    }

    /// Whether the trace field opens without a quote.
    fn unquoted(&self) -> bool {
        self.fields.len() > 2 && self.field(2).first() != Some(&b'"')
    }

    /// The characters of the trace, each two quotes one; nothing where it is not
    /// quoted.
    fn characters(&self) -> Vec<u8> {
        let mut characters = Vec::new();
        let mut second = false;
        for byte in self.quoted().unwrap_or(b"") {
            second = *byte == b'"' && !second;
            if *byte != b'"' || second {
                characters.push(*byte);
            }
        }
        characters
    }

    /// Each thing by which it can be malformed: too long, no LF, the number of
    /// its fields, its number, label, trace, flags.
    fn malformed(&self) -> [bool; 7] {
        let digits = |field: &[u8], most: usize| (1..=most).contains(&field.len()) && field.iter().all(u8::is_ascii_digit);
        let count = self.fields.len();
        let quotes_wrong = count > 2 && !self.unquoted() && self.quoted().is_none();
        [
            self.bytes.len() > 80,
            !self.ended,
            count != 4 && !quotes_wrong,
            !digits(self.field(0), 4),
            count > 1 && !(self.field(1).len() == 2 && self.field(1).iter().all(u8::is_ascii_hexdigit)),
            quotes_wrong,
            count == 4 && !digits(self.field(3), 2),
        ]
    }

    /// The number of its refusal, 0 where it has none.
    fn number(&self) -> u8 {
        if self.malformed().contains(&true) {
            15
        } else if self.unquoted() {
            16
        } else if self.characters().len() > 15 {
            17
        } else {
            0
        }
    }

    /// Whether a record of what can be read in it would be wrong: its number,
    /// label, characters or flags.
    fn record_wrong(&self) -> bool {
        let flags = self.field(3);
        let of_0 = |field: &[u8]| !field.is_empty() && field.iter().all(|digit| *digit == b'0');
        of_0(self.field(0))
            || matches!(self.field(1), b"00" | [b'F' | b'f', b'F' | b'f'])
            || self.quoted().is_some_and(|inside| unprintable(inside) || inside.iter().all(|c| *c == b' '))
            || (flags.len() == 2 && flags > b"15" && flags.iter().all(u8::is_ascii_digit))
    }

    /// Its trace as a record has it.
    fn padded(&self) -> Vec<u8> {
        let mut characters = self.characters();
        characters.resize(15, b' ');
        characters
    }
}

/// A text that was imported: the faults of its lines, and which of them decided.
pub fn imported(text: &[u8], answer: &Result<Vec<u8>, Refusal>, note: Note) {
    let mut lines: Vec<SheetLine> = text.split(|byte| *byte == b'\n').map(|line| SheetLine::new(line, true)).collect();
    // What is behind the last LF is a line that none ends, where it is anything.
    match lines.last_mut() {
        Some(last) if !last.bytes.is_empty() => last.ended = false,
        _ => {
            lines.pop();
        }
    }
    if text.len() > 512 * 81 {
        note("import.text-above-41472-bytes");
    }
    match answer {
        Ok(catalogue) => {
            note(match lines.len() {
                0 => "import.none",
                1 => "import.one",
                512 => "import.512",
                _ => "import.some",
            });
            if !lines.is_empty() && super::rules::export(catalogue).as_deref() == Ok(text) {
                note("import.of-an-export");
            }
            for line in &lines {
                line_read(line, note);
            }
        }
        Err(Refusal { number: 18, .. }) => {
            let any = |number: u8| lines.iter().any(|line| line.number() == number);
            let ended = lines.iter().filter(|line| line.ended).count();
            each(
                [
                    (true, "import.refused-18"),
                    (ended == 513 && lines.len() == 513, "import.18-by-513-LF"),
                    (ended == 512, "import.18-by-bytes-behind-512-LF"),
                    (lines.len() > 513, "import.18-of-more-than-513"),
                    (lines.iter().all(|line| line.bytes.is_empty()), "import.18-of-empty-lines"),
                    (any(15) && ended == lines.len(), "import.18-before-15"),
                    (lines.iter().any(|line| line.bytes.len() > 80), "import.18-before-too-long"),
                    (any(16), "import.18-before-16"),
                    (any(17), "import.18-before-17"),
                ],
                note,
            );
        }
        Err(refusal) => {
            let place = refusal.places[0];
            let (front, [line, behind @ ..]) = lines.split_at(place - 1) else {
                return;
            };
            match refusal.number {
                15 => line_malformed(line, place, note),
                16 => line_unquoted(line, note),
                17 => line_with_a_long_trace(line, note),
                _ => record_refused(refusal, line, front, behind, note),
            }
            if matches!(refusal.number, 15..=17) {
                decided(refusal.number, line, front, behind, note);
            }
        }
    }
}

/// A line with one of 15, 16, 17 that decided: where it stands, and what stands
/// in it, before it and behind it.
fn decided(number: u8, line: &SheetLine, front: &[SheetLine], behind: &[SheetLine], note: Note) {
    let later = |number: u8| behind.iter().any(|line| line.number() == number);
    let mut met = HashSet::new();
    let repeat = front.iter().any(|line| !met.insert(line.padded()));
    let names = match number {
        15 => [
            "import.refused-15", "import.15-in-line-1", "import.15-in-a-later-line", "import.15-in-line-512",
            "import.15-before-its-record", "import.15-before-an-earlier-record", "import.15-before-13",
        ],
        16 => [
            "import.refused-16", "import.16-in-line-1", "import.16-in-a-later-line", "import.16-in-line-512",
            "import.16-before-its-record", "import.16-before-an-earlier-record", "import.16-before-13",
        ],
        _ => [
            "import.refused-17", "import.17-in-line-1", "import.17-in-a-later-line", "import.17-in-line-512",
            "import.17-before-its-record", "import.17-before-an-earlier-record", "import.17-before-13",
        ],
    };
    let cases = [
        true,
        front.is_empty(),
        !front.is_empty(),
        front.len() == 511,
        line.record_wrong(),
        front.iter().any(|line| line.record_wrong()),
        repeat,
    ];
    for (name, met) in names.iter().zip(cases) {
        if met {
            note(name);
        }
    }
    each(
        [
            (number == 15 && later(16), "import.15-before-a-later-16"),
            (number == 15 && later(17), "import.15-before-a-later-17"),
            (number == 16 && later(15), "import.16-before-a-later-15"),
            (number == 16 && later(17), "import.16-before-a-later-17"),
            (number == 17 && later(15), "import.17-before-a-later-15"),
            (number == 17 && later(16), "import.17-before-a-later-16"),
        ],
        note,
    );
}

/// The characters just beside the hex digits.
const BESIDE_HEX: [(u8, &str, &str); 6] = [
    (0x2F, "import.15-label-2F-first", "import.15-label-2F-second"),
    (0x3A, "import.15-label-3A-first", "import.15-label-3A-second"),
    (0x40, "import.15-label-40-first", "import.15-label-40-second"),
    (0x47, "import.15-label-47-first", "import.15-label-47-second"),
    (0x60, "import.15-label-60-first", "import.15-label-60-second"),
    (0x67, "import.15-label-67-first", "import.15-label-67-second"),
];

/// A line that is 15: by what, where it is that alone, and whether it has more.
fn line_malformed(line: &SheetLine, place: usize, note: Note) {
    let malformed = line.malformed();
    let by = |kind: usize| malformed[kind];
    let alone = malformed.iter().filter(|one| **one).count() == 1;
    let (bytes, trace) = (line.bytes, line.field(2));
    let long_trace = line.characters().len() > 15;
    each(
        [
            (line.unquoted() && !by(0) && !by(1), "import.15-before-16"),
            (long_trace && !by(0) && !by(1), "import.15-before-17"),
            (alone && by(0) && line.unquoted(), "import.15-too-long-before-16"),
            (alone && by(0) && long_trace, "import.15-too-long-before-17"),
            (alone && by(1) && line.unquoted(), "import.15-no-LF-before-16"),
            (alone && by(1) && long_trace, "import.15-no-LF-before-17"),
            (bytes.is_empty(), "import.15-empty-line"),
            (bytes == b"\r" && line.ended, "import.15-CR-alone"),
            (bytes == b"\r" && !line.ended, "import.15-no-LF-behind-CR-alone"),
        ],
        note,
    );
    // From here on nothing else is wrong with it.
    if !alone || (line.unquoted() && !by(0) && !by(2)) || (long_trace && !by(0)) {
        return;
    }
    let (number, label, flags) = (line.field(0), line.field(1), line.field(3));
    // It has as many digits as it may and one character that is none.
    let has = |field: &[u8], most: usize, byte: u8| field.len() <= most && field.contains(&byte);
    let is_quoted = |field: &[u8]| matches!(field, [b'"', .., b'"']);
    let count = line.fields.len();
    let quotes = number_of(b'"', trace);
    each(
        [
            (by(0) && bytes.len() == 81, "import.15-line-of-81"),
            (by(0) && bytes.len() > 81, "import.15-line-above-81"),
            (by(0) && bytes.len() - number_of(b'"', bytes) / 2 < 80, "import.15-line-above-80-of-quotes"),
            (by(1), "import.15-no-LF"),
            (by(1) && place == 512, "import.15-no-LF-at-line-512"),
            (by(2) && count < 4 && !line.unquoted(), "import.15-fewer-fields"),
            (by(2) && count > 4 && !line.unquoted(), "import.15-more-fields"),
            (by(2) && count == 5 && bytes.ends_with(b",") && !line.unquoted(), "import.15-comma-at-the-end"),
            (by(2) && count == 3 && line.quoted().is_some(), "import.15-nothing-behind-the-quote"),
            (by(2) && count == 3 && line.unquoted(), "import.15-unquoted-to-the-end"),
            (by(2) && count > 4 && line.unquoted(), "import.15-unquoted-with-a-comma"),
            (by(3) && number.is_empty(), "import.15-number-empty"),
            (by(3) && number.len() == 5 && number.iter().all(u8::is_ascii_digit), "import.15-number-of-5"),
            (by(3) && has(number, 4, 0x2F), "import.15-number-2F"),
            (by(3) && has(number, 4, 0x3A), "import.15-number-3A"),
            (by(3) && has(number, 4, b' '), "import.15-number-blank"),
            (by(3) && bytes.starts_with(b" "), "import.15-blank-at-the-start"),
            (by(3) && place == 1 && bytes.starts_with(MARK), "import.15-mark-at-the-start"),
            (by(3) && number.len() < 5 && matches!(number, [b'+' | b'-', b'0'..=b'9', ..]), "import.15-number-signed"),
            (by(3) && is_quoted(number), "import.15-number-quoted"),
            (by(4) && is_quoted(label), "import.15-label-quoted"),
            (by(6) && is_quoted(flags), "import.15-flags-quoted"),
            (by(6) && flags.len() < 3 && !flags.is_empty() && flags.iter().all(u8::is_ascii_hexdigit), "import.15-flags-hex"),
            (by(4) && label.is_empty(), "import.15-label-empty"),
            (by(4) && label.len() == 1, "import.15-label-of-1"),
            (by(4) && label.len() == 3 && label.iter().all(u8::is_ascii_hexdigit), "import.15-label-of-3"),
            (by(5) && trace == b"\"", "import.15-quote-alone"),
            (by(5) && quotes % 2 == 1 && trace != b"\"" && !trace.windows(3).any(|three| three == b"\"\","), "import.15-quote-not-closed"),
            (by(5) && quotes == 3 && trace[1] != b'"' && trace.windows(3).any(|three| three == b"\"\","), "import.15-quote-doubled-at-the-end"),
            (by(5) && trace.starts_with(b"\"\"\",") && quotes == 3, "import.15-three-quotes-alone"),
            (by(5) && quotes % 2 == 0 && trace.ends_with(b"\""), "import.15-quote-inside"),
            (by(5) && quotes % 2 == 0 && trace.ends_with(b"\" "), "import.15-blank-behind-the-quote"),
            (by(5) && quotes % 2 == 0 && !trace.ends_with(b"\"") && !trace.ends_with(b"\" "), "import.15-more-behind-the-quote"),
            (by(6) && flags.is_empty(), "import.15-flags-empty"),
            (by(6) && flags.len() == 3 && flags.iter().all(u8::is_ascii_digit), "import.15-flags-of-3"),
            (by(6) && has(flags, 2, 0x2F), "import.15-flags-2F"),
            (by(6) && has(flags, 2, 0x3A), "import.15-flags-3A"),
            (by(6) && has(flags, 2, b' '), "import.15-flags-blank"),
            (by(6) && bytes.ends_with(b" "), "import.15-blank-at-the-end"),
            (by(6) && flags.len() > 1 && flags.ends_with(b"\r"), "import.15-CR-before-LF"),
        ],
        note,
    );
    if let (true, [high, low]) = (by(4), label) {
        for (byte, first, second) in BESIDE_HEX {
            if *high == byte && low.is_ascii_hexdigit() {
                note(first);
            }
            if *low == byte && high.is_ascii_hexdigit() {
                note(second);
            }
        }
    }
}

/// A line that is 16.
fn line_unquoted(line: &SheetLine, note: Note) {
    let trace = line.field(2);
    each(
        [
            (trace.is_empty(), "import.16-empty"),
            ((1..=15).contains(&trace.len()), "import.16-of-15-or-fewer"),
            (trace.len() > 15, "import.16-of-more-than-15"),
            (trace.contains(&b'"') && trace[0] != b' ', "import.16-with-a-quote"),
            (trace.starts_with(b" \"") && trace.ends_with(b"\""), "import.16-blank-before-the-quote"),
            (trace.contains(&b'\r'), "import.16-with-a-CR"),
            (line.bytes.len() == 79, "import.16-in-a-line-of-79"),
            (line.bytes.len() == 80, "import.16-in-a-line-of-80"),
        ],
        note,
    );
}

/// A line that is 17.
fn line_with_a_long_trace(line: &SheetLine, note: Note) {
    let characters = line.characters();
    let halved = characters.len() + 2 < line.field(2).len();
    each(
        [
            (characters.len() == 16 && !halved, "import.17-of-16"),
            (characters.len() == 16 && halved, "import.17-of-16-when-halved"),
            (characters.len() > 16, "import.17-of-more-than-16"),
            (characters.iter().all(|c| *c == b' '), "import.17-of-spaces"),
            (characters.iter().all(|c| *c == b'"'), "import.17-of-quotes"),
            (unprintable(&characters), "import.17-with-a-wrong-character"),
            (line.bytes.len() == 79, "import.17-in-a-line-of-79"),
            (line.bytes.len() == 80, "import.17-in-a-line-of-80"),
        ],
        note,
    );
}

/// A line of a text that was taken.
fn line_read(line: &SheetLine, note: Note) {
    let (number, label, trace, flags) = (line.field(0), line.field(1), line.field(2), line.field(3));
    let characters = line.characters();
    let quotes = number_of(b'"', &characters);
    let quote_at = |place: Option<&u8>| place == Some(&b'"') && quotes < characters.len();
    let inside = characters.get(1..characters.len() - 1).unwrap_or(b"");
    note(match number.len() {
        1 => "import.number-of-1",
        2 => "import.number-of-2",
        3 => "import.number-of-3",
        _ => "import.number-of-4",
    });
    note(match (label.iter().any(u8::is_ascii_uppercase), label.iter().any(u8::is_ascii_lowercase)) {
        (false, false) => "import.label-digits",
        (true, false) => "import.label-capitals",
        (false, true) => "import.label-small",
        (true, true) => "import.label-mixed",
    });
    note(if flags.len() == 1 { "import.flags-of-1" } else { "import.flags-of-2" });
    note(match characters.len() {
        1 => "import.trace-of-1",
        14 => "import.trace-of-14",
        15 if quotes == 0 => "import.trace-of-15",
        15 => "import.trace-of-15-when-halved",
        _ => "import.trace-of-2-to-13",
    });
    each(
        [
            (number[0] == b'0', "import.number-leading-0"),
            (flags.len() == 2 && flags[0] == b'0', "import.flags-leading-0"),
            (quotes == 15, "import.trace-of-15-quotes"),
            (characters.contains(&b','), "import.trace-comma"),
            (characters[0] == b' ', "import.trace-blank-first"),
            (characters.ends_with(b" "), "import.trace-blank-last"),
            (characters == b"\"", "import.trace-quote-alone"),
            (quote_at(characters.first()), "import.trace-quote-first"),
            (quote_at(characters.last()), "import.trace-quote-last"),
            (inside.contains(&b'"') && quotes < characters.len(), "import.trace-quote-between"),
            (characters.windows(2).any(|two| two == b"\"\""), "import.trace-two-quotes-together"),
            (trace.windows(3).any(|three| three == b"\"\","), "import.trace-quote-and-comma"),
        ],
        note,
    );
}

/// A text of which the catalogue was refused: the line that is its record, those
/// before it and those behind.
fn record_refused(refusal: &Refusal, line: &SheetLine, front: &[SheetLine], behind: &[SheetLine], note: Note) {
    let number = refusal.number;
    note(match number {
        11 => "import.refused-11",
        4 => "import.refused-4",
        5 => "import.refused-5",
        20 => "import.refused-20",
        21 => "import.refused-21",
        12 => "import.refused-12",
        _ => "import.refused-13",
    });
    let (digits, label, flags) = (line.field(0), line.field(1), line.field(3));
    let (trace, characters) = (line.field(2), line.characters());
    // The place of a character is not that of its byte.
    let moved = match refusal.places[..] {
        [_, place] if matches!(number, 5 | 20) => trace.get(place) != characters.get(place - 1),
        _ => false,
    };
    let character = match refusal.places[..] {
        [_, place] if number == 5 => characters[place - 1],
        _ => b' ',
    };
    // The record that a repeat names beside it.
    let first = match refusal.places[..] {
        [_, first] if number == 13 => front[first - 1].field(2),
        _ => b"",
    };
    let mut met = HashSet::new();
    let repeat = front.iter().chain([line]).chain(behind).any(|line| !met.insert(line.padded()));
    each(
        [
            (number == 11 && digits.len() == 1, "import.11-of-one-0"),
            (number == 11 && digits.len() > 1, "import.11-of-more-0"),
            (number == 4 && label == b"00", "import.4-of-00"),
            (number == 4 && label == b"FF", "import.4-of-FF"),
            (number == 4 && label == b"ff", "import.4-of-ff"),
            (number == 12 && flags == b"16", "import.12-of-16"),
            (number == 12 && flags == b"99", "import.12-of-99"),
            (number == 12 && behind.iter().any(|line| line.record_wrong()), "import.12-before-a-later-record"),
            (number == 12 && repeat, "import.12-before-13"),
            (number == 21 && characters.is_empty(), "import.21-of-none"),
            (number == 21 && !characters.is_empty(), "import.21-of-blanks"),
            (character == b'\r', "import.5-of-CR"),
            (number == 5 && moved, "import.5-behind-a-doubled-quote"),
            (number == 20 && moved, "import.20-behind-a-doubled-quote"),
            (number == 13 && first == trace, "import.13-written-alike"),
            (number == 13 && first != trace, "import.13-written-otherwise"),
        ],
        note,
    );
}

/// A catalogue that was exported.
pub fn exported(bytes: &[u8], answer: &Result<Vec<u8>, Refusal>, note: Note) {
    if let Err(refusal) = answer {
        note(match refusal.number {
            9 => "export.refused-9",
            10 => "export.refused-10",
            11 => "export.refused-11",
            4 => "export.refused-4",
            5 => "export.refused-5",
            20 => "export.refused-20",
            21 => "export.refused-21",
            12 => "export.refused-12",
            _ => "export.refused-13",
        });
        return;
    }
    note(match bytes.len() / RECORD_LENGTH {
        0 => "export.none",
        512 => "export.512",
        _ => "export.some",
    });
    for record in bytes.chunks_exact(RECORD_LENGTH) {
        let (label, trace, flags) = (record[4], &record[5..20], record[20]);
        let quotes = number_of(b'"', trace);
        note(match u16::from_be_bytes([record[2], record[3]]) {
            0..=9 => "export.number-of-1",
            10..=99 => "export.number-of-2",
            100..=999 => "export.number-of-3",
            _ => "export.number-of-4",
        });
        note(if flags < 10 { "export.flags-of-1" } else { "export.flags-of-2" });
        each(
            [
                (label < 0x10, "export.label-below-10"),
                (label >> 4 > 9 || label & 15 > 9, "export.label-letters"),
                (trace[0] == b'"' && quotes < 15, "export.trace-quote-first"),
                (trace[14] == b'"' && quotes < 15, "export.trace-quote-last"),
                (trace[1..14].contains(&b'"') && quotes < 15, "export.trace-quote-between"),
                (quotes == 15, "export.trace-of-15-quotes"),
                (trace.contains(&b','), "export.trace-comma"),
                (trace[0] == b' ', "export.trace-blank-first"),
                (trace[14] == b' ', "export.trace-blanks-last"),
            ],
            note,
        );
    }
}

// ---------------------------------------------------------------------------
// The settings
// ---------------------------------------------------------------------------

/// The settings of the source: what they are refused by, and the faults that
/// it came before.
pub fn sent(refused: Option<&Refusal>, trace: &[u8; 15], violations: u8, note: Note) {
    let (number, in_trace) = (number_in(refused), number_for(trace));
    note(match number {
        0 => "tx.taken",
        4 => "tx.refused-4",
        5 => "tx.refused-5",
        20 => "tx.refused-20",
        21 => "tx.refused-21",
        _ => "tx.refused-6",
    });
    each(
        [
            (number == 4 && in_trace == 5, "tx.refused-4-before-5"),
            (number == 4 && in_trace == 20, "tx.refused-4-before-20"),
            (number == 4 && in_trace == 21, "tx.refused-4-before-21"),
            (number == 4 && violations > 8, "tx.refused-4-before-6"),
            (number == 5 && violations > 8, "tx.refused-5-before-6"),
            (number == 20 && violations > 8, "tx.refused-20-before-6"),
            (number == 21 && violations > 8, "tx.refused-21-before-6"),
        ],
        note,
    );
    taken_trace(number, trace, note);
}

/// The settings of the sink.
pub fn expected(refused: Option<&Refusal>, trace: &[u8; 15], note: Note) {
    let (number, in_trace) = (number_in(refused), number_for(trace));
    note(match number {
        0 => "rx.taken",
        4 => "rx.refused-4",
        5 => "rx.refused-5",
        20 => "rx.refused-20",
        _ => "rx.refused-21",
    });
    each(
        [
            (number == 4 && in_trace == 5, "rx.refused-4-before-5"),
            (number == 4 && in_trace == 20, "rx.refused-4-before-20"),
            (number == 4 && in_trace == 21, "rx.refused-4-before-21"),
        ],
        note,
    );
    taken_trace(number, trace, note);
}

/// So many runs, where the settings of source and sink are refused or not.
pub fn runs(times: usize, sent_refused: bool, expected_refused: bool, note: Note) {
    note(if times == 1 { "runs.one" } else { "runs.more" });
    each([(sent_refused, "runs.behind-a-refused-tx"), (expected_refused, "runs.behind-a-refused-rx")], note);
}

/// "trace character outside 20 to 7E"
fn unprintable(trace: &[u8]) -> bool {
    trace.iter().any(|c| *c < 0x20 || *c > 0x7E)
}

// ---------------------------------------------------------------------------
// The characters of a trace
// ---------------------------------------------------------------------------

const PLACES: [&str; 15] = [
    "trace.refused-first-place", "trace.refused-place-2", "trace.refused-place-3", "trace.refused-place-4",
    "trace.refused-place-5", "trace.refused-place-6", "trace.refused-place-7", "trace.refused-place-8",
    "trace.refused-place-9", "trace.refused-place-10", "trace.refused-place-11", "trace.refused-place-12",
    "trace.refused-place-13", "trace.refused-place-14", "trace.refused-last-place",
];

/// A trace of which a call was refused with this number, where it is 5 or 20:
/// the character that decided, and those behind it. "below 20, above 7E"
fn refused_trace(number: u8, trace: &[u8; 15], note: Note) {
    if !matches!(number, 5 | 20) {
        return;
    }
    let is_below = |c: u8| c < 0x20;
    let is_above = |c: u8| c > 0x7E;
    let Some(first) = trace.iter().position(|c| is_below(*c) || is_above(*c)) else {
        return;
    };
    note(PLACES[first]);
    let (character, behind) = (trace[first], &trace[first + 1..]);
    let (below, above) = (is_below(character), is_above(character));
    let below_behind = behind.iter().any(|c| is_below(*c));
    let above_behind = behind.iter().any(|c| is_above(*c));
    let spaces = number_of(b' ', trace) == 14;
    each(
        [
            (character == 0x00, "trace.refused-00"),
            (character == 0x1F, "trace.refused-1F"),
            (character == 0x7F, "trace.refused-7F"),
            (character == 0x80, "trace.refused-80"),
            (character == 0xFF, "trace.refused-FF"),
            (below && above_behind, "trace.below-before-above"),
            (above && below_behind, "trace.above-before-below"),
            (below && below_behind, "trace.below-before-below"),
            (above && above_behind, "trace.above-before-above"),
            (below && spaces, "trace.spaces-but-one-below"),
            (above && spaces, "trace.spaces-but-one-above"),
        ],
        note,
    );
}

/// A trace that settings have which are not refused.
fn taken_trace(number: u8, trace: &[u8; 15], note: Note) {
    if number != 0 {
        return;
    }
    let spaces = number_of(b' ', trace) == 14;
    let (first, last) = (trace[0] != b' ', trace[14] != b' ');
    each(
        [
            (trace.contains(&0x20), "trace.taken-20"),
            (trace.contains(&0x7E), "trace.taken-7E"),
            (spaces && first, "trace.taken-spaces-but-the-first"),
            (spaces && !first && !last, "trace.taken-spaces-but-one-between"),
            (spaces && last, "trace.taken-spaces-but-the-last"),
        ],
        note,
    );
}

// ---------------------------------------------------------------------------
// The lines of a script
// ---------------------------------------------------------------------------

/// The longest line, and the bytes that are dropped at a script's start, said
/// here once more: these functions do not ask the reader.
const LONGEST_LINE: usize = 100_000;
const MARK: &[u8] = b"\xEF\xBB\xBF";

fn number_of(byte: u8, bytes: &[u8]) -> usize {
    bytes.iter().filter(|one| **one == byte).count()
}

/// A line with its number, the words that were read in it, none where it has
/// none that can be read, and whether it was understood.
pub fn line(line: &[u8], count: usize, words: Option<&[&[u8]]>, understood: bool, note: Note) {
    let mark = line.starts_with(MARK);
    let too_long = line.len() > LONGEST_LINE;
    let cr = line.ends_with(b"\r");
    if too_long {
        each(
            [
                (true, "script.not-understood"),
                (true, "line.too-long"),
                (cr, "line.too-long-by-CR"),
                (mark && count == 1, "line.too-long-by-mark"),
                (line[0] == b'#', "line.too-long-comment"),
            ],
            note,
        );
        return;
    }
    let longest = line.len() == LONGEST_LINE && understood;
    let text = if mark && count == 1 { &line[MARK.len()..] } else { line };
    let text = if cr { &text[..text.len() - 1] } else { text };
    let Some(words) = words else {
        note("script.not-understood");
        // Where their number is odd, one has no second.
        note(if number_of(b'"', text) % 2 == 1 { "quoted.open" } else { "quoted.more-behind" });
        return;
    };
    // What stands in the line and in no word of it stands in a comment.
    let in_comment = |byte| number_of(byte, text) - words.iter().map(|word| number_of(byte, word)).sum::<usize>();
    let comment = in_comment(b'#') > 0;
    let asks = understood && !words.is_empty();
    let bare = asks && !comment && !text.contains(&b'"');
    each(
        [
            (!understood, "script.not-understood"),
            (words.is_empty() && comment, "script.comment"),
            (words.is_empty() && !comment, "script.blank"),
            (words.is_empty() && comment && text[0] == b' ', "script.comment-behind-blanks"),
            (asks && comment, "script.comment-behind-a-command"),
            (asks && comment && in_comment(b'"') > 0, "script.comment-with-a-quote"),
            (!understood && words.iter().any(|word| word[0] != b'"' && word.contains(&b'#')), "script.number-sign-in-a-word"),
            (asks && text[0] == b' ', "script.blanks-before"),
            (bare && text.trim_ascii().windows(2).any(|two| two == b"  "), "script.blanks-between"),
            (bare && text.ends_with(b" "), "script.blanks-behind"),
            (!understood && text.contains(&b'\t'), "script.tab"),
            (asks && cr, "script.CR-dropped"),
            (words.is_empty() && cr, "script.CR-alone"),
            (!understood && cr && text.ends_with(b"\r"), "script.CR-twice"),
            (mark && count == 1, "script.mark-dropped"),
            (mark && count > 1, "script.mark-later"),
            (longest, "line.longest"),
            (longest && cr, "line.longest-with-CR"),
            (longest && mark && count == 1, "line.longest-with-mark"),
        ],
        note,
    );
    let [name, behind @ ..] = words else {
        return;
    };
    let settings = matches!(*name, b"tx" | b"rx");
    for word in words {
        match word {
            [b'"', inside @ .., b'"'] => quoted(inside, settings, understood, note),
            _ if word.contains(&b'"') => note("quoted.inside-a-word"),
            _ => {}
        }
    }
    if asks && *name != b"src" {
        for word in behind.iter().filter(|word| word[0] != b'"') {
            match (word.iter().any(u8::is_ascii_uppercase), word.iter().any(u8::is_ascii_lowercase)) {
                (true, true) => note("hex.mixed"),
                (true, false) => note("hex.capitals"),
                (false, true) => note("hex.small"),
                (false, false) => {}
            }
        }
    }
    match words {
        [b"run", b"0"] => note("runs.none"),
        [b"run", b"10000"] => note("runs.too-many"),
        _ => {}
    }
}

/// What stands between the quotes of a word, in the line of a `tx` or `rx` or
/// elsewhere.
fn quoted(inside: &[u8], settings: bool, understood: bool, note: Note) {
    let characters = inside.len() - number_of(b'"', inside) / 2;
    let halved = characters < inside.len();
    each(
        [
            (understood && characters == 0, "quoted.empty"),
            (understood && (1..15).contains(&characters), "quoted.short"),
            (understood && characters == 15, "quoted.fifteen"),
            (understood && characters == 15 && halved, "quoted.fifteen-when-halved"),
            (understood && halved, "quoted.quote"),
            (understood && inside.contains(&b' '), "quoted.blank"),
            (understood && characters > 0 && inside.iter().all(|c| *c == b' '), "quoted.blanks-alone"),
            (understood && inside.contains(&b'#'), "quoted.number-sign"),
            (understood && unprintable(inside), "quoted.refused-character"),
            (settings && !understood && characters == 16 && !halved, "quoted.sixteen"),
            (settings && !understood && characters == 16 && halved, "quoted.sixteen-when-halved"),
            (!settings && !understood, "quoted.no-trace-there"),
        ],
        note,
    );
}
