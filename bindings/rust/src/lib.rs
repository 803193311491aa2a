//! The wallet of one party of a swap: the five calls of libswap_party, and their answers as values.
//!
//! A warning (`stale`, `unkept`, `bad`) stands beside the calls of an [`Answer`], never in their
//! place. `docs/using/wallet.md` says what a wallet does with each line.

mod answer;
mod library;

pub use answer::{Answer, Call, Due, Line, NotAnAnswer, Rest, Warning};
pub use library::{check, deal, keys, next, terms, version, Error, Seed};
