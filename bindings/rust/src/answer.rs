//! An answer's lines as values.

use std::fmt;

/// A line that no answer has.
#[derive(Debug, Clone, PartialEq, Eq)]
pub struct NotAnAnswer(pub String);

/// What is wrong with a ledger or the notes. It stands beside what is due.
#[derive(Debug, Clone, PartialEq, Eq)]
pub enum Warning {
    /// A ledger is told below the height at which it was seen.
    Stale { arc: u8, height: u64 },
    /// The notes have no one hashkey for that lock.
    Stopped { lock: u8 },
    /// An unlock of the party by a hashkey that isn't among the notes.
    Unkept { arc: u8, entry: u64, lock: u8 },
    /// That entry of a ledger can't be read, or isn't what its contract replies.
    Bad { arc: u8, entry: u64, replies: String },
}

/// A call, in the words of a ledger's line.
#[derive(Clone, PartialEq, Eq)]
pub enum Call {
    Publish(String),
    Unlock(String),
    Claim,
    Refund,
}

impl Call {
    /// The words, as a ledger's line has them.
    pub fn words(&self) -> &str {
        match self {
            Call::Publish(words) | Call::Unlock(words) => words,
            Call::Claim => "claim",
            Call::Refund => "refund",
        }
    }
}

/// An unlock shows no secret where it is printed.
impl fmt::Debug for Call {
    fn fmt(&self, to: &mut fmt::Formatter<'_>) -> fmt::Result {
        to.write_str(self.words().split(' ').next().unwrap_or_default())
    }
}

/// A call that may be presented on an arc's ledger: on time up to `by`, and of use up to `until`.
#[derive(Debug, Clone, PartialEq, Eq)]
pub struct Due {
    pub arc: u8,
    pub party: u8,
    pub by: u64,
    pub until: Option<u64>,
    pub call: Call,
}

/// What is to be done, or waited for.
#[derive(Clone, PartialEq, Eq)]
pub enum Line {
    /// This very line goes into the notes, and is synced, before anybody sees the hashkey.
    Keep(String),
    Due(Due),
    /// A publish was sent on that arc, and may land.
    Landing { arc: u8, by: u64, until: u64 },
}

impl fmt::Debug for Line {
    fn fmt(&self, to: &mut fmt::Formatter<'_>) -> fmt::Result {
        match self {
            Line::Keep(_) => to.write_str("Keep(..)"),
            Line::Due(due) => due.fmt(to),
            Line::Landing { arc, .. } => write!(to, "Landing({arc})"),
        }
    }
}

/// That nothing is due.
#[derive(Debug, Clone, Copy, PartialEq, Eq)]
pub enum Rest {
    /// Until a call lands, or a ledger stands above the height, where there is one.
    Wait(Option<u64>),
    Done,
}

/// All lines of an answer.
#[derive(Debug, Clone, PartialEq, Eq, Default)]
pub struct Answer {
    pub warnings: Vec<Warning>,
    pub lines: Vec<Line>,
    pub rest: Option<Rest>,
}

impl Answer {
    /// Reads what `party next` or the library wrote.
    pub fn parse(text: &str) -> Result<Answer, NotAnAnswer> {
        let mut answer = Answer::default();
        for line in text.lines() {
            answer.take(line).ok_or_else(|| NotAnAnswer(line.split(' ').next().unwrap_or_default().into()))?;
        }
        Ok(answer)
    }

    fn take(&mut self, line: &str) -> Option<()> {
        let words: Vec<&str> = line.split(' ').collect();
        match words[..] {
            ["stale", arc, height] => self.warnings.push(Warning::Stale { arc: number(arc)?, height: number(height)? }),
            ["unkept", lock] => self.warnings.push(Warning::Stopped { lock: number(lock)? }),
            ["unkept", arc, entry, lock] => self.warnings.push(Warning::Unkept { arc: number(arc)?, entry: number(entry)?, lock: number(lock)? }),
            ["bad", arc, entry, ref more @ ..] => {
                self.warnings.push(Warning::Bad { arc: number(arc)?, entry: number(entry)?, replies: more.join(" ") })
            }
            ["keep", _, "by", _, "until", _, _, _, _] => self.lines.push(Line::Keep(line.into())),
            ["call", arc, party, "by", by, "until", until, ref call @ ..] => {
                let call = match call {
                    ["publish", ..] => Call::Publish(call.join(" ")),
                    ["unlock", ..] => Call::Unlock(call.join(" ")),
                    _ => return None,
                };
                self.due(arc, party, by, Some(number(until)?), call)?
            }
            ["call", arc, party, "by", by, "claim"] => self.due(arc, party, by, None, Call::Claim)?,
            ["call", arc, party, "by", by, "refund"] => self.due(arc, party, by, None, Call::Refund)?,
            ["landing", arc, "by", by, "until", until] => {
                self.lines.push(Line::Landing { arc: number(arc)?, by: number(by)?, until: number(until)? })
            }
            ["wait"] => self.rest = Some(Rest::Wait(None)),
            ["wait", height] => self.rest = Some(Rest::Wait(Some(number(height)?))),
            ["done"] => self.rest = Some(Rest::Done),
            _ => return None,
        }
        Some(())
    }

    fn due(&mut self, arc: &str, party: &str, by: &str, until: Option<u64>, call: Call) -> Option<()> {
        self.lines.push(Line::Due(Due { arc: number(arc)?, party: number(party)?, by: number(by)?, until, call }));
        Some(())
    }
}

fn number<N: std::str::FromStr>(word: &str) -> Option<N> {
    word.parse().ok()
}

#[cfg(test)]
mod tests {
    use super::*;

    #[test]
    fn warnings_stand_beside_calls() {
        let text = "stale 2 9\nunkept 1\nunkept 1 4 0\nbad 1 0 NotExpired 61 accepted\nkeep 0 by 30 until 40 aa 0 bb\n\
                    call 1 1 by 10 until 30 publish 10\ncall 2 1 by 70 refund\nlanding 3 by 10 until 30\n";
        let answer = Answer::parse(text).expect("an answer");
        assert_eq!((answer.warnings.len(), answer.lines.len(), answer.rest), (4, 4, None));
        assert!(!format!("{answer:?}").contains("aa"));
    }

    #[test]
    fn rests() {
        assert_eq!(Answer::parse("wait 60\n").expect("an answer").rest, Some(Rest::Wait(Some(60))));
        assert_eq!(Answer::parse("bad 0 1\ndone\n").expect("an answer").rest, Some(Rest::Done));
        assert!(Answer::parse("call 1 1 by 3 until 4 claim\n").is_err());
    }
}
