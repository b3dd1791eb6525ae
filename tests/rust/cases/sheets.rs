//! Random sheet texts, sound and faulty.

use super::random::Random;
use super::values::{self, TYPES};
use crate::engine::value::Type;

/// A sheet as lines of cells, so that it can be spoilt before it is written.
pub struct Sheet {
    pub heading: Vec<String>,
    pub rows: Vec<Vec<String>>,
}

/// A sheet that passes the test of memory.
pub fn sheet(random: &mut Random, columns: &[Type], rows: usize) -> Sheet {
    let heading = columns.iter().map(|&column| type_name(column).to_string()).collect();
    // Readings stay for a while, so that timers run out.
    let steadiness = random.pick(&[0, 50, 80, 95]);
    let mut last: Vec<String> = columns.iter().map(|&column| values::literal(random, column)).collect();
    let mut row = || {
        for (cell, &column) in last.iter_mut().zip(columns) {
            if !random.chance(steadiness) {
                *cell = values::literal(random, column);
            }
        }
        last.clone()
    };
    Sheet { heading, rows: (0..rows).map(|_| row()).collect() }
}

fn type_name(of: Type) -> &'static str {
    match of {
        Type::Binary => "binary",
        Type::Whole => "whole",
        Type::Real => "real",
    }
}

impl Sheet {
    /// Spoils the sheet: a fault of the test of memory, or of the text.
    pub fn spoil(&mut self, random: &mut Random, columns: &[Type]) {
        if columns.is_empty() {
            return match random.below(3) {
                0 => self.rows.clear(),
                1 => self.rows.resize(random.pick(&[4097, 4097, 4200]), Vec::new()),
                _ => {
                    let row = random.below(self.rows.len());
                    self.rows[row].push("0".to_string());
                }
            };
        }
        let (row, column) = (random.below(self.rows.len()), random.below(columns.len()));
        match random.below(10) {
            0 => self.rows.clear(),
            1 => {
                let first = self.rows[0].clone();
                self.rows.resize(random.pick(&[4097, 4097, 4200]), first);
            }
            2 => {
                while self.heading.len() < 9 {
                    self.heading.push("binary".to_string());
                    self.rows.iter_mut().for_each(|row| row.push("0".to_string()));
                }
            }
            3 => self.heading[column] = random.word("Binary bool int reals whole;real 1 x"),
            4 => self.rows[row][column] = values::no_literal(random),
            5 if random.chance(50) => self.rows[row].push("0".to_string()),
            5 => drop(self.rows[row].pop()),
            _ => {
                for _ in 0..random.between(1, 3) {
                    let (row, column) = (random.below(self.rows.len()), random.below(columns.len()));
                    self.rows[row][column] = values::refused_literal(random, columns[column]);
                }
            }
        }
    }

    pub fn text(&self, random: &mut Random) -> Vec<u8> {
        let spaced = random.chance(25);
        let ending = random.pick(&["\n", "\n", "\n", "\r\n"]);
        let mut text = String::new();
        for (number, cells) in std::iter::once(&self.heading).chain(&self.rows).enumerate() {
            if number > 0 {
                text.push_str(ending);
            }
            for (place, cell) in cells.iter().enumerate() {
                if place > 0 {
                    text.push(',');
                }
                if spaced {
                    let (before, after) = (random.below(3), random.below(3));
                    text.push_str(&format!("{:before$}{cell}{:after$}", "", ""));
                } else {
                    text.push_str(cell);
                }
            }
            if spaced && cells.is_empty() {
                text.push_str(&" ".repeat(random.below(3)));
            }
        }
        // The last line feed may be left out, unless the last line would go with it.
        if text.is_empty() || text.ends_with('\n') || random.chance(80) {
            text.push_str(ending);
        } else if random.chance(50) {
            text.push_str(ending.trim_end_matches('\n'));
        }
        text.into_bytes()
    }
}

/// Columns that are not quite these.
pub fn other_columns(random: &mut Random, columns: &[Type]) -> Vec<Type> {
    let mut other = columns.to_vec();
    match random.below(3) {
        0 if !other.is_empty() => drop(other.pop()),
        1 if !other.is_empty() => {
            let place = random.below(other.len());
            other[place] = random.pick(&TYPES);
        }
        _ if other.len() < 8 => other.push(random.pick(&TYPES)),
        _ => other.reverse(),
    }
    other
}
