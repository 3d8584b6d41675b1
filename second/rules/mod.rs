//! The rules, each subject in a file of its own. The words in quotation marks
//! in the comments are the paper's.

mod catalogue;
mod container;
pub(super) mod counts;
mod cut;
mod monitor;
mod parity;
mod pointer;
mod refusal;
mod shape;
mod sheet;
mod sink;
mod trace;
mod unit;
mod word;

// A program that takes these as a module need not use all of them.
#[allow(unused_imports)]
pub use self::{
    catalogue::*, container::*, cut::*, monitor::*, parity::*, pointer::*, refusal::*, shape::*, sheet::*,
    sink::*, trace::*, unit::*, word::*,
};
