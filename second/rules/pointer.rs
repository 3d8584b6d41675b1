//! "Reading one pointer word": what the words alone decide.

use super::counts::{
    up, LONGEST_WAIT, MOST_ALARM_WORDS, MOST_ALIKE_WORDS, MOST_ENABLED_WORDS, MOST_INVALID_WORDS,
};
use super::shape::Shape;
use super::word::{inverted, Word};

/// "The state is normal with its offset, alarm or lost". "Its offset is a
/// pointer value."
#[derive(Clone, Copy, Debug, PartialEq, Eq)]
pub enum Pointer {
    Normal(u16),
    Alarm,
    Lost,
}

/// How a word was taken, by the number of its rule.
#[derive(Clone, Copy, Debug, PartialEq, Eq)]
pub enum Taken {
    /// 1: "FFFF is an alarm word."
    AlarmWord,
    /// 2: "Enabled NDF, SS 10, in range: new data."
    NewData,
    /// 3: "The run is three or more, and the state is not normal or its offset
    /// differs".
    Found,
    /// 4.
    Plain,
    Increment,
    Decrement,
    /// 5: "changes nothing and is not invalid".
    Waiting,
    /// 6: "All else is invalid."
    Invalid,
}

/// State of the reader.
#[derive(Clone, Copy, Debug, PartialEq, Eq)]
pub struct PointerReader {
    pub state: Pointer,
    /// FFFF words, new data words and invalid words in a row.
    pub alarm_words: u8,
    pub enabled_words: u8,
    pub invalid_words: u8,
    /// "The run", and the value of its words.
    pub run: u8,
    pub run_value: u16,
    /// "at least three units lie between this one and the last adjustment or
    /// new data that ended normal (the wait)".
    pub wait: u8,
}

/// "three or more I bits inverted and at most two D bits is an increment; the
/// mirror case a decrement".
pub(crate) fn adjustment(value: u16, offset: u16) -> Option<Taken> {
    let (i, d) = inverted(value, offset);
    if i >= 3 && d <= 2 {
        return Some(Taken::Increment);
    }
    if d >= 3 && i <= 2 {
        return Some(Taken::Decrement);
    }
    None
}

impl PointerReader {
    /// "it starts lost, the wait 3, all else 0 or none".
    pub fn fresh() -> Self {
        PointerReader {
            state: Pointer::Lost,
            alarm_words: 0,
            enabled_words: 0,
            invalid_words: 0,
            run: 0,
            run_value: 0,
            wait: LONGEST_WAIT,
        }
    }

    /// Every number is in its range.
    #[inline]
    pub(crate) fn in_range(&self, shape: Shape) -> bool {
        let offset_good = match self.state {
            Pointer::Normal(offset) => offset <= shape.last_value(),
            Pointer::Alarm | Pointer::Lost => true,
        };
        offset_good
            && self.alarm_words <= MOST_ALARM_WORDS
            && self.enabled_words <= MOST_ENABLED_WORDS
            && self.invalid_words <= MOST_INVALID_WORDS
            && self.run <= MOST_ALIKE_WORDS
            && self.run_value <= shape.last_value()
            && self.wait <= LONGEST_WAIT
    }

    /// Reads one word: "First rule that applies".
    #[inline]
    pub fn read(&mut self, shape: Shape, word: Word) -> Taken {
        let before = self.state;
        self.count_alike(shape, word);
        let taken = self.rule(shape, word);

        // "Any other kind of word ends a row; rows are counted in lost too."
        let row = |count: u8, kind: Taken, most: u8| if taken == kind { up(count, most) } else { 0 };
        self.alarm_words = row(self.alarm_words, Taken::AlarmWord, MOST_ALARM_WORDS);
        self.enabled_words = row(self.enabled_words, Taken::NewData, MOST_ENABLED_WORDS);
        self.invalid_words = row(self.invalid_words, Taken::Invalid, MOST_INVALID_WORDS);

        self.state = match (taken, before) {
            // 1: "Three in a row lead to alarm from any state."
            (Taken::AlarmWord, _) if self.alarm_words >= 3 => Pointer::Alarm,
            // 2: "From normal or alarm, normal at that value, but the eighth in
            // a row leads to lost. In lost it changes nothing."
            (Taken::NewData, Pointer::Lost) => Pointer::Lost,
            (Taken::NewData, _) if self.enabled_words >= 8 => Pointer::Lost,
            (Taken::NewData, _) => Pointer::Normal(word.value),
            // 3: "normal at that value"
            (Taken::Found, _) => Pointer::Normal(word.value),
            // 4
            (Taken::Increment, Pointer::Normal(offset)) => Pointer::Normal(shape.incremented(offset)),
            (Taken::Decrement, Pointer::Normal(offset)) => Pointer::Normal(shape.decremented(offset)),
            // 6: "Eight in a row, in normal or alarm, lead to lost."
            (Taken::Invalid, _) if self.invalid_words >= 8 => Pointer::Lost,
            _ => before,
        };

        // "the last adjustment or new data that ended normal (the wait)"
        let waits_anew = match taken {
            Taken::Increment | Taken::Decrement => true,
            Taken::NewData => self.state != Pointer::Lost,
            _ => false,
        };
        self.wait = if waits_anew { 0 } else { up(self.wait, LONGEST_WAIT) };
        taken
    }

    /// "The run counts consecutive words with normal NDF, SS 10, value in range
    /// and the same value, however else each was taken."
    #[inline]
    fn count_alike(&mut self, shape: Shape, word: Word) {
        if !(word.is_normal() && word.in_range(shape)) {
            self.run = 0;
            self.run_value = 0;
        } else if self.run > 0 && self.run_value == word.value {
            self.run = up(self.run, MOST_ALIKE_WORDS);
        } else {
            self.run = 1;
            self.run_value = word.value;
        }
    }

    /// The rule for a word, with the run already counted.
    #[inline]
    fn rule(&self, shape: Shape, word: Word) -> Taken {
        // 1
        if word.is_alarm() {
            return Taken::AlarmWord;
        }
        // 2
        if word.is_enabled() && word.in_range(shape) {
            return Taken::NewData;
        }
        // 3
        if self.run >= 3 && self.state != Pointer::Normal(word.value) {
            return Taken::Found;
        }
        match self.state {
            // 4; "The value need not be in range."
            Pointer::Normal(offset) if word.is_normal() => {
                if word.value == offset {
                    return Taken::Plain;
                }
                if self.wait >= LONGEST_WAIT {
                    if let Some(taken) = adjustment(word.value, offset) {
                        return taken;
                    }
                }
            }
            Pointer::Normal(_) => {}
            // 5
            Pointer::Alarm | Pointer::Lost => {
                if word.is_normal() && word.in_range(shape) {
                    return Taken::Waiting;
                }
            }
        }
        // 6
        Taken::Invalid
    }
}
