//! Random scripts, sound and faulty.

use super::random::Random;
use super::values;
use crate::engine::value::Type;

/// Lines that are text errors, the last of them after a call only.
const BAD_LINES: &str = "\
hop
Jump 3
steps
jump
jump x
jump -1
jump 65536
jump 1.0
jump 0x1
jump 1 2
step 1
write 0 0
write 0 256 1
write 65536 0 1
write 0 0 1 2
write x 0 1
back 1
begin 1
confirm x
confirm -1
confirm 0 0
drop x
drop -1
drop 0 0
show
show 256
show -1
show 0 0
tally
tally 256
tally x
tally 0 0
goto
goto ninebytes
goto a b
mark
mark a
mark a x
mark a 65536
mark ninebytes 1
mark éüöäß 1
mark a 1 2
mark late 3";

/// What a script is written for, and where its calls lead. The playhead and the trial are kept only to aim at the
/// cases that matter; nothing is predicted from them.
pub struct Scribe<'a> {
    random: &'a mut Random,
    columns: &'a [Type],
    rows: usize,
    blocks: usize,
    playhead: usize,
    in_trial: bool,
    marks: Vec<(String, usize)>,
    lines: Vec<Vec<String>>,
}

impl<'a> Scribe<'a> {
    pub fn new(random: &'a mut Random, columns: &'a [Type], rows: usize, blocks: usize) -> Self {
        Scribe { random, columns, rows, blocks, playhead: 0, in_trial: false, marks: Vec::new(), lines: Vec::new() }
    }

    /// A script that reads without a text error.
    pub fn write(mut self) -> Vec<u8> {
        self.write_lines();
        self.text()
    }

    /// A script with a line that is a text error.
    pub fn write_spoilt(mut self) -> Vec<u8> {
        self.write_lines();
        let place = self.random.below(self.lines.len() + 1);
        let line = self.bad_line();
        self.lines.insert(place, line);
        self.text()
    }

    fn write_lines(&mut self) {
        for _ in 0..self.random.below(5) {
            let name = self.mark_name();
            let cycle = self.cycle();
            self.marks.push((name.clone(), cycle));
            let cycle = self.number(cycle);
            self.line(&["mark", &name, &cycle]);
        }
        let calls = self.random.between(5, 60);
        let overfull = !self.columns.is_empty() && self.random.chance(2);
        let burst = if overfull { Some(self.random.below(calls)) } else { None };
        for call in 0..calls {
            if burst == Some(call) {
                self.fill_list();
            }
            self.call();
        }
    }

    /// As many writes as can stand, and one more.
    fn fill_list(&mut self) {
        // Each write before the playhead works its cycles anew.
        let near = self.random.below(self.rows.min(200)).to_string();
        self.line(&["jump", &near]);
        for _ in 0..self.random.between(1020, 1030) {
            let (cycle, column) = (self.random.below(self.rows), self.random.below(self.columns.len()));
            let literal = values::literal(self.random, self.columns[column]);
            self.line(&["write", &cycle.to_string(), &column.to_string(), &literal]);
        }
    }

    fn call(&mut self) {
        let ending = if self.in_trial { 6 } else { 1 };
        match self.random.weighted(&[20, 8, 6, 22, 8, 5, ending, ending, 8, 3]) {
            0 => {
                let cycle = self.cycle();
                let word = self.number(cycle);
                self.line(&["jump", &word]);
                self.lead_to(cycle);
            }
            1 => {
                for _ in 0..self.random.pick(&[1, 1, 1, 1, 2, 5]) {
                    self.line(&["step"]);
                    self.lead_to(self.playhead + 1);
                }
            }
            2 => self.goto(),
            3 => self.write_reading(),
            4 => self.line(&["back"]),
            5 => {
                self.line(&["begin"]);
                self.in_trial = true;
            }
            6 => self.end_trial("confirm"),
            7 => self.end_trial("drop"),
            8 => {
                let block = self.index(self.blocks);
                self.line(&["show", &block]);
            }
            _ => {
                let column = self.index(self.columns.len());
                self.line(&["tally", &column]);
            }
        }
    }

    fn goto(&mut self) {
        if self.marks.is_empty() || self.random.chance(15) {
            let name = self.mark_name();
            self.line(&["goto", &name]);
        } else {
            let (name, cycle) = self.random.pick(&self.marks);
            self.line(&["goto", &name]);
            self.lead_to(cycle);
        }
    }

    fn write_reading(&mut self) {
        let cycle = self.cycle();
        let column = if self.columns.is_empty() || self.random.chance(3) {
            self.random.pick(&[self.columns.len(), 8, 255])
        } else {
            self.random.below(self.columns.len())
        };
        let wanted = self.columns.get(column).copied().unwrap_or(Type::Real);
        let literal = if self.random.chance(7) {
            values::refused_literal(self.random, wanted)
        } else {
            values::literal(self.random, wanted)
        };
        let (cycle, column) = (self.number(cycle), self.number(column));
        self.line(&["write", &cycle, &column, &literal]);
    }

    fn end_trial(&mut self, word: &str) {
        match self.random.below(6) {
            0 | 1 => self.line(&[word, "0"]),
            2 => {
                let place = self.random.pick(&[1, 2, 7, 255, 65536]).to_string();
                return self.line(&[word, &place]);
            }
            _ => self.line(&[word]),
        }
        self.in_trial = false;
    }

    fn lead_to(&mut self, cycle: usize) {
        if cycle < self.rows {
            self.playhead = cycle;
        }
    }

    /// A cycle of interest: about the playhead, about a keyframe, the last, any, or one beyond the sheet.
    fn cycle(&mut self) -> usize {
        let (rows, playhead) = (self.rows, self.playhead);
        let wanted = match self.random.below(20) {
            0..=4 => (playhead + self.random.below(5)).saturating_sub(2),
            5..=8 => (32 * self.random.below(rows / 32 + 1) + self.random.below(3)).saturating_sub(1),
            9 => rows - 1,
            10 => return self.random.pick(&[rows, rows, rows + 1, 4095, 4096, 65535]),
            11..=13 => self.random.below(playhead + 1),
            _ => self.random.below(rows),
        };
        wanted.min(rows - 1)
    }

    /// A block or column, now and then one that is not there.
    fn index(&mut self, count: usize) -> String {
        let wanted = if count == 0 || self.random.chance(6) {
            self.random.pick(&[count, count + 1, 255])
        } else {
            self.random.below(count)
        };
        self.number(wanted)
    }

    fn number(&mut self, number: usize) -> String {
        match self.random.below(40) {
            0 => format!("+{number}"),
            1 => format!("{number:03}"),
            _ => number.to_string(),
        }
    }

    fn mark_name(&mut self) -> String {
        self.random.word("a b noon start 12345678 #1 é ölÖl A a:")
    }

    fn bad_line(&mut self) -> Vec<String> {
        let line = if self.random.chance(10) {
            format!("write 0 0 {}", values::no_literal(self.random))
        } else {
            self.random.pick(&BAD_LINES.lines().collect::<Vec<_>>()).to_string()
        };
        line.split(' ').map(str::to_string).collect()
    }

    fn line(&mut self, words: &[&str]) {
        self.lines.push(words.iter().map(|word| word.to_string()).collect());
    }

    /// The lines with spaces, empty lines and comments among them.
    fn text(self) -> Vec<u8> {
        let random = self.random;
        let loose = random.chance(25);
        let ending = random.pick(&["\n", "\n", "\n", "\r\n"]);
        let mut text = String::new();
        for words in &self.lines {
            if loose && random.chance(15) {
                text.push_str(random.pick(&["", "  ", "#", "# step", "#jump 3"]));
                text.push_str(ending);
            }
            if loose {
                text.push_str(&" ".repeat(random.below(3)));
                for word in words {
                    text.push_str(word);
                    text.push_str(&" ".repeat(random.between(1, 3)));
                }
            } else {
                text.push_str(&words.join(" "));
            }
            text.push_str(ending);
        }
        if random.chance(10) {
            text.truncate(text.len() - ending.len());
        }
        text.into_bytes()
    }
}
