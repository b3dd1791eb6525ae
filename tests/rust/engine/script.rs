//! A script's text: marks, then calls.

use super::literal;
use super::sheet::TextError;
use super::value::{Type, Value};
use std::collections::HashMap;
use std::str::FromStr;

pub type Name = [u8; 8];

const CALLS: [&str; 11] =
    ["mark", "step", "jump", "goto", "write", "back", "begin", "confirm", "drop", "show", "tally"];

#[derive(Clone, Debug)]
pub enum Call {
    Step,
    Jump(usize),
    Goto(Name),
    Write { cycle: usize, column: usize, value: Value },
    Back,
    Begin,
    Confirm(Option<usize>),
    Drop(Option<usize>),
    Show(usize),
    Tally(usize),
}

pub struct Script {
    pub marks: HashMap<Name, usize>,
    /// Each call with its words, joined by single spaces.
    pub calls: Vec<(String, Call)>,
}

/// The columns are the sheet's: they say how the value of a write is read.
pub fn read(text: &str, columns: &[Type]) -> Result<Script, TextError> {
    let mut script = Script { marks: HashMap::new(), calls: Vec::new() };
    for (number, line) in super::sheet::lines(text) {
        let words: Vec<&str> = line.split(' ').filter(|word| !word.is_empty()).collect();
        if words.is_empty() || line.starts_with('#') {
            continue;
        }
        script.take(&words, columns).map_err(|why| (number, why))?;
    }
    Ok(script)
}

impl Script {
    fn take(&mut self, words: &[&str], columns: &[Type]) -> Result<(), &'static str> {
        let call = match *words {
            ["mark", mark, at] => {
                let (mark, at) = (name(mark)?, cycle(at)?);
                if !self.calls.is_empty() {
                    return Err("mark after a call");
                }
                self.marks.insert(mark, at);
                return Ok(());
            }
            ["step"] => Call::Step,
            ["jump", to] => Call::Jump(cycle(to)?),
            ["goto", mark] => Call::Goto(name(mark)?),
            ["write", at, column, value] => {
                let (cycle, column) = (cycle(at)?, small(column)?);
                let value = literal::read(value, columns.get(column).copied()).ok_or("value is no literal")?;
                Call::Write { cycle, column, value }
            }
            ["back"] => Call::Back,
            ["begin"] => Call::Begin,
            ["confirm"] => Call::Confirm(None),
            ["confirm", slip] => Call::Confirm(Some(number(slip, "bad slip")?)),
            ["drop"] => Call::Drop(None),
            ["drop", slip] => Call::Drop(Some(number(slip, "bad slip")?)),
            ["show", block] => Call::Show(small(block)?),
            ["tally", column] => Call::Tally(small(column)?),
            [word, ..] if CALLS.contains(&word) => return Err("wrong number of words"),
            _ => return Err("no such call"),
        };
        self.calls.push((words.join(" "), call));
        Ok(())
    }
}

fn number<T: FromStr>(word: &str, why: &'static str) -> Result<T, &'static str> {
    word.parse().map_err(|_| why)
}

fn cycle(word: &str) -> Result<usize, &'static str> {
    number::<u16>(word, "bad cycle").map(usize::from)
}

/// A column or a block.
fn small(word: &str) -> Result<usize, &'static str> {
    number::<u8>(word, "bad column or block").map(usize::from)
}

/// A mark's name, filled up with zero bytes.
fn name(word: &str) -> Result<Name, &'static str> {
    let mut name = [0; 8];
    let front = name.get_mut(..word.len()).ok_or("name of more than 8 bytes")?;
    front.copy_from_slice(word.as_bytes());
    Ok(name)
}
