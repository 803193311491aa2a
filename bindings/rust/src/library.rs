//! The library's calls.

use crate::answer::{Answer, NotAnAnswer};
use std::ffi::{c_char, CStr};
use std::fmt;

#[repr(C)]
struct Said {
    status: u32,
    length: usize,
}

const DONE: u32 = 0;
const SHORT: u32 = 1;
const WARNED: u32 = 2;
const REFUSED: u32 = 3;
const NO_MEMORY: u32 = 6;
const TOO_LONG: u32 = 7;

extern "C" {
    fn swap_party_keys(text: *const u8, length: usize, name: *const u8, name_length: usize, seed: *const u8, out: *mut u8, room: usize) -> Said;
    fn swap_party_deal(text: *const u8, length: usize, out: *mut u8, room: usize) -> Said;
    fn swap_party_terms(text: *const u8, length: usize, name: *const u8, name_length: usize, out: *mut u8, room: usize) -> Said;
    fn swap_party_next(text: *const u8, length: usize, name: *const u8, name_length: usize, seed: *const u8, out: *mut u8, room: usize) -> Said;
    fn swap_party_check(text: *const u8, length: usize, out: *mut u8, room: usize) -> Said;
    fn swap_party_version() -> *const c_char;
}

/// The seed of one party in one swap. It isn't shown where it is printed.
pub struct Seed(pub [u8; 32]);

impl fmt::Debug for Seed {
    fn fmt(&self, to: &mut fmt::Formatter<'_>) -> fmt::Result {
        to.write_str("Seed(..)")
    }
}

/// Why a call has no answer.
#[derive(Debug, Clone, PartialEq, Eq)]
pub enum Error {
    /// The first reason against what was handed over, as docs/FORMATS.md tells it.
    Refused(String),
    /// The text has more bytes than its limit.
    TooLong,
    /// malloc answered null: ask again.
    NoMemory,
    /// The library and this crate are of different versions.
    NotAnAnswer(String),
}

impl fmt::Display for Error {
    fn fmt(&self, to: &mut fmt::Formatter<'_>) -> fmt::Result {
        match self {
            Error::Refused(reason) => write!(to, "refused: {reason}"),
            Error::TooLong => to.write_str("the text has more bytes than its limit"),
            Error::NoMemory => to.write_str("no memory"),
            Error::NotAnAnswer(line) => write!(to, "no answer: {line}"),
        }
    }
}

impl std::error::Error for Error {}

impl From<NotAnAnswer> for Error {
    fn from(why: NotAnAnswer) -> Error {
        Error::NotAnAnswer(why.0)
    }
}

/// What a call puts into the buffer. It is made again where the buffer was too short.
fn said(call: impl Fn(*mut u8, usize) -> Said) -> Result<Vec<u8>, Error> {
    let mut out = vec![0; 1 << 14];
    let mut said = call(out.as_mut_ptr(), out.len());
    if said.status == SHORT {
        out.resize(said.length, 0);
        said = call(out.as_mut_ptr(), out.len());
    }
    if matches!(said.status, DONE | WARNED | REFUSED) {
        out.truncate(said.length);
    }
    match said.status {
        DONE | WARNED => Ok(out),
        REFUSED => Err(Error::Refused(String::from_utf8_lossy(&out).trim_start_matches("swap: refused: ").trim_end().into())),
        NO_MEMORY => Err(Error::NoMemory),
        TOO_LONG => Err(Error::TooLong),
        status => Err(Error::NotAnAnswer(format!("status {status}"))),
    }
}

fn text(said: Vec<u8>) -> Result<String, Error> {
    String::from_utf8(said).map_err(|why| Error::NotAnAnswer(why.to_string()))
}

/// The row of the party of that name for the deal of an offer's line, with its line feed.
pub fn keys(offer: &str, name: &str, seed: &Seed) -> Result<String, Error> {
    // SAFETY: the library reads the texts of these lengths and 32 bytes of seed, and writes at most
    // `room` bytes. So it is of each call below.
    let row = said(|out, room| unsafe { swap_party_keys(offer.as_ptr(), offer.len(), name.as_ptr(), name.len(), seed.0.as_ptr(), out, room) });
    text(row?)
}

/// The header line of the deal of an offer's line and everybody's rows behind it.
pub fn deal(offer_and_rows: &str) -> Result<String, Error> {
    // SAFETY: as of `keys`.
    let header = said(|out, room| unsafe { swap_party_deal(offer_and_rows.as_ptr(), offer_and_rows.len(), out, room) });
    text(header?)
}

/// What the party of that name agrees to by a header line and lines of context.
pub fn terms(agreed: &str, name: &str) -> Result<String, Error> {
    // SAFETY: as of `keys`.
    let terms = said(|out, room| unsafe { swap_party_terms(agreed.as_ptr(), agreed.len(), name.as_ptr(), name.len(), out, room) });
    text(terms?)
}

/// What is due for the party of that name, and what is wrong beside it.
pub fn next(told: &str, name: &str, seed: &Seed) -> Result<Answer, Error> {
    // SAFETY: as of `keys`.
    let answer = said(|out, room| unsafe { swap_party_next(told.as_ptr(), told.len(), name.as_ptr(), name.len(), seed.0.as_ptr(), out, room) });
    Ok(Answer::parse(&text(answer?)?)?)
}

/// The id of the deal that a header line states, where it is accepted.
pub fn check(header: &str) -> Result<[u8; 32], Error> {
    // SAFETY: as of `keys`.
    let id = said(|out, room| unsafe { swap_party_check(header.as_ptr(), header.len(), out, room) })?;
    id.try_into().map_err(|_| Error::NotAnAnswer("an id has 32 bytes".into()))
}

/// The version of the library that was linked, a space, and `proved` or `unproved`.
pub fn version() -> String {
    // SAFETY: the library answers a text that ends with a zero byte and is never freed.
    unsafe { CStr::from_ptr(swap_party_version()) }.to_string_lossy().into_owned()
}
