//! "Counts stop at the end of their range": where each of them does.

pub(crate) const MOST_ALARM_WORDS: u8 = 3;
pub(crate) const MOST_ALIKE_WORDS: u8 = 3;
pub(crate) const MOST_MESSAGES: u8 = 3;
/// "at least three units lie between this one and the last adjustment".
pub(crate) const LONGEST_WAIT: u8 = 3;
pub(crate) const MOST_INVALID_WORDS: u8 = 8;
pub(crate) const MOST_ENABLED_WORDS: u8 = 8;
/// "label and defect runs 5".
pub(crate) const MOST_EQUAL: u8 = 5;
/// "J1 carries 16 bytes in turn": the last place of the message, counted from
/// the start byte at 0.
pub(crate) const LAST_PLACE: u8 = 15;
/// "containers without a message 48".
pub(crate) const MOST_WITHOUT: u8 = 48;

/// One more, up to the end of the range.
pub(crate) fn up(count: u8, most: u8) -> u8 {
    if count < most {
        count + 1
    } else {
        most
    }
}
