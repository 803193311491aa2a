//! Settles a swap whose parties all keep to the protocol, by the crate `swap-party`, as settle.c does.
//!
//! usage: settle [KILLS] < LINES > TRANSCRIPT
//!
//! With KILLS every so many lines a wallet is killed behind what it wrote down, and starts again.

use std::fmt::Write as _;
use std::io::{Read, Write};
use swap_party::{Call, Line, Seed};

struct Party {
    name: String,
    seed: Seed,
    agreed: String,
    notes: String,
}

struct Ledger {
    ends: [String; 2],
    entries: Vec<String>,
}

struct Swap {
    header: String,
    ledgers: Vec<Ledger>,
    parties: Vec<Party>,
    kills: u32,
    obeyed: u32,
}

/// What stands behind a field's name in compact JSON, up to a sign.
fn field<'a>(json: &'a str, name: &str, end: char) -> Result<&'a str, String> {
    let behind = json.split_once(&format!("\"{name}\":")).ok_or(format!("the header has no {name}"))?.1;
    behind.trim_start_matches('"').split(end).next().ok_or_else(String::new)
}

fn party(line: &str) -> Result<Party, String> {
    let (name, digits) = line.split_once(' ').ok_or("a line isn't a name and a seed")?;
    let mut seed = [0; 32];
    for (at, byte) in seed.iter_mut().enumerate() {
        let pair = digits.get(2 * at..2 * at + 2).ok_or("a seed is too short")?;
        *byte = u8::from_str_radix(pair, 16).map_err(|why| why.to_string())?;
    }
    Ok(Party { name: name.into(), seed: Seed(seed), agreed: String::new(), notes: String::new() })
}

impl Swap {
    fn read(text: &str, kills: u32) -> Result<Swap, String> {
        let (header, lines) = text.split_once('\n').ok_or("no header")?;
        let ledger = |arc| -> Result<Ledger, String> {
            Ok(Ledger { ends: [field(arc, "from", '"')?.into(), field(arc, "to", '"')?.into()], entries: Vec::new() })
        };
        let ledgers = header.match_indices("\"from\":").map(|(at, _)| ledger(&header[at..]));
        Ok(Swap { header: header.into(), ledgers: ledgers.collect::<Result<_, _>>()?, parties: lines.lines().map(party).collect::<Result<_, _>>()?, kills, obeyed: 0 })
    }

    fn number(&self, name: &str) -> Result<u64, String> {
        field(&self.header, name, ',')?.parse().map_err(|_| format!("{name} is no number"))
    }

    /// The header, and what stands on every ledger, or on those that touch one party.
    fn told(&self, name: Option<&String>) -> String {
        let mut told = format!("{}\n", self.header);
        for (arc, ledger) in self.ledgers.iter().enumerate().filter(|(_, it)| name.map_or(true, |name| it.ends.contains(name))) {
            let _ = writeln!(told, "ledger {arc} {}", ledger.entries.len());
            ledger.entries.iter().for_each(|it| told += it);
        }
        told + "end\n"
    }

    /// Keeps the digest of each party's terms, to which here every owner agrees as they are.
    fn agree(&mut self) -> Result<(), String> {
        let header = format!("{}\n", self.header);
        for party in &mut self.parties {
            let terms = swap_party::terms(&header, &party.name).map_err(|why| why.to_string())?;
            party.agreed = terms.lines().find_map(|it| it.strip_prefix("agree ")).ok_or("the terms have no digest")?.into();
        }
        Ok(())
    }

    /// Whether the wallet is killed behind what it just wrote down.
    fn is_killed(&mut self) -> bool {
        self.obeyed += 1;
        self.kills > 0 && self.obeyed % self.kills == 0
    }

    /// Keeps what is to be kept, writes down a publish before it goes out, and presents a call:
    /// whether the wallet lives.
    fn obey(&mut self, who: usize, line: &Line) -> bool {
        match line {
            Line::Keep(line) => {
                self.parties[who].notes += &format!("{line}\n");
                !self.is_killed()
            }
            Line::Due(due) => {
                let sent = format!("sent {}\n", due.arc);
                if matches!(due.call, Call::Publish(_)) {
                    self.parties[who].notes += &sent;
                }
                if self.is_killed() {
                    // (this ledger takes a call at once or never: it never went out)
                    self.parties[who].notes = self.parties[who].notes.replace(&sent, "");
                    return false;
                }
                self.ledgers[usize::from(due.arc)].entries.push(format!("c {} {} = accepted\n", due.party, due.call.words()));
                true
            }
            Line::Landing { .. } => true,
        }
    }

    /// Asks what is due, and obeys as long as it lives: whether anything was.
    fn turn(&mut self, who: usize) -> Result<bool, String> {
        let party = &self.parties[who];
        let text = format!("agreed {}\n{}{}", party.agreed, party.notes, self.told(Some(&party.name)));
        let answer = swap_party::next(&text, &party.name, &party.seed).map_err(|why| why.to_string())?;
        for warning in &answer.warnings {
            eprintln!("{}: {warning:?}", party.name);
        }
        Ok(answer.lines.iter().take_while(|line| self.obey(who, line)).count() > 0 || !answer.lines.is_empty())
    }

    fn settle(&mut self) -> Result<(), String> {
        let horizon = self.number("start")? + (2 * self.number("bound")? + 2) * self.number("delta")?;
        for _ in 0..=horizon {
            while (0..self.parties.len()).try_fold(false, |acted, who| Ok::<_, String>(self.turn(who)? | acted))? {}
            self.ledgers.iter_mut().for_each(|it| it.entries.push("t 1\n".into()));
        }
        Ok(())
    }
}

fn settled() -> Result<String, String> {
    let mut text = String::new();
    std::io::stdin().read_to_string(&mut text).map_err(|why| why.to_string())?;
    let kills = std::env::args().nth(1).map_or(Ok(0), |it| it.parse()).map_err(|_| "KILLS is no number")?;
    let mut swap = Swap::read(&text, kills)?;
    swap_party::check(&swap.header).map_err(|why| why.to_string())?;
    swap.agree()?;
    swap.settle()?;
    Ok(format!("swap transcript 1\n{}", swap.told(None)))
}

fn main() -> std::process::ExitCode {
    match settled().and_then(|told| std::io::stdout().write_all(told.as_bytes()).map_err(|why| why.to_string())) {
        Ok(()) => std::process::ExitCode::SUCCESS,
        Err(why) => {
            eprintln!("settle: {why}");
            std::process::ExitCode::FAILURE
        }
    }
}
