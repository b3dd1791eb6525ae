//! What the program answers, and the text and exit status that tell it.

use super::keyframes::Worked;
use super::plant::Kind;
use super::value::Value;
use std::fmt;

pub type Outcome = Result<Run, Stop>;

/// The number of a fault and its place.
#[derive(Clone, Copy, Debug)]
pub struct Fault {
    pub number: u8,
    place: (usize, usize),
}

impl Fault {
    pub fn new(number: u8, a: usize, b: usize) -> Fault {
        Fault { number, place: (a, b) }
    }
}

pub enum Answer {
    Worked(Worked),
    Slip(usize),
    Shown(Value),
    Count(usize),
    Refused(Fault),
    NoSlip,
}

/// A run that was opened.
pub struct Run {
    pub columns: usize,
    pub rows: usize,
    pub answers: Vec<(String, Answer)>,
    pub playhead: usize,
    pub blocks: Vec<(String, Value)>,
    pub kinds: Vec<Kind>,
}

/// Why nothing was opened.
pub enum Stop {
    Usage(&'static str),
    CannotRead(String, &'static str),
    Text(Part, usize, &'static str),
    Refused(Part, Fault),
}

#[derive(Clone, Copy, Debug)]
pub enum Part {
    Drawing,
    Sheet,
    Script,
    Opening,
}

pub fn status(outcome: &Outcome) -> u8 {
    u8::from(outcome.is_err())
}

pub fn text(outcome: &Outcome) -> String {
    match outcome {
        Ok(run) => run.to_string(),
        Err(stop) => format!("{stop}\n"),
    }
}

/// Whether these bytes tell the outcome. The rules leave open what stands behind the colon of a text error.
pub fn is_told_by(outcome: &Outcome, printed: &[u8]) -> bool {
    let text = text(outcome);
    match outcome {
        Ok(_) | Err(Stop::Refused(..)) => printed == text.as_bytes(),
        Err(_) => {
            let colon = text.find(": ").expect("a text error has a colon");
            let one_line = printed.iter().position(|&byte| byte == b'\n') == printed.len().checked_sub(1);
            one_line && printed.starts_with(&text.as_bytes()[..=colon])
        }
    }
}

impl fmt::Display for Part {
    fn fmt(&self, f: &mut fmt::Formatter) -> fmt::Result {
        f.write_str(match self {
            Part::Drawing => "drawing",
            Part::Sheet => "sheet",
            Part::Script => "script",
            Part::Opening => "open",
        })
    }
}

impl fmt::Display for Stop {
    fn fmt(&self, f: &mut fmt::Formatter) -> fmt::Result {
        match self {
            Stop::Usage(why) => write!(f, "usage: {why}"),
            Stop::CannotRead(path, why) => write!(f, "cannot read {path}: {why}"),
            Stop::Text(part, line, why) => write!(f, "{part} line {line}: {why}"),
            Stop::Refused(part, Fault { number, place: (a, b) }) => {
                let layer = if matches!(part, Part::Drawing) { 4 } else { 3 };
                write!(f, "{part} refused {number} layer {layer} at {a} {b}")
            }
        }
    }
}

impl fmt::Display for Answer {
    fn fmt(&self, f: &mut fmt::Formatter) -> fmt::Result {
        match self {
            Answer::Worked(worked) => write!(f, "worked {}", worked.cycles),
            Answer::Slip(number) => write!(f, "slip {number}"),
            Answer::Shown(value) => write!(f, "{value}"),
            Answer::Count(count) => write!(f, "count {count}"),
            Answer::Refused(Fault { number, place: (a, b) }) => write!(f, "refused {number} layer 3 at {a} {b}"),
            Answer::NoSlip => write!(f, "no slip in hand"),
        }
    }
}

impl fmt::Display for Run {
    fn fmt(&self, f: &mut fmt::Formatter) -> fmt::Result {
        writeln!(f, "opened: {} blocks, {} columns, {} rows", self.blocks.len(), self.columns, self.rows)?;
        for (words, answer) in &self.answers {
            writeln!(f, "{words}: {answer}")?;
        }
        writeln!(f, "playhead {}", self.playhead)?;
        for (number, (name, value)) in self.blocks.iter().enumerate() {
            writeln!(f, "{number} {name}: {value}")?;
        }
        Ok(())
    }
}
