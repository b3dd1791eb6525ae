//! A sheet's text and the test of its memory.

use super::literal;
use super::outcome::Fault;
use super::value::{Type, Value};

/// The number of a line, from 1, and what is wrong with it.
pub type TextError = (usize, &'static str);

/// What is handed over to be made into a sheet.
pub struct Memory {
    pub columns: Vec<Type>,
    pub rows: Vec<Vec<Value>>,
}

/// The lines of a text, which may lack the last line feed.
pub fn lines(text: &str) -> impl Iterator<Item = (usize, &str)> {
    let text = text.strip_suffix('\n').unwrap_or(text);
    (1..).zip(text.split('\n').map(|line| line.strip_suffix('\r').unwrap_or(line)))
}

/// The parts between the commas of a line. A line of nothing but spaces has none.
fn parts(line: &str) -> Vec<&str> {
    match line.trim_matches(' ') {
        "" => Vec::new(),
        line => line.split(',').map(|part| part.trim_matches(' ')).collect(),
    }
}

pub fn read(text: &str) -> Result<Memory, TextError> {
    let mut lines = lines(text);
    let (_, heading) = lines.next().expect("every text has a first line");
    let columns = parts(heading)
        .into_iter()
        .map(|name| match name {
            "binary" => Ok(Type::Binary),
            "whole" => Ok(Type::Whole),
            "real" => Ok(Type::Real),
            _ => Err((1, "unknown type")),
        })
        .collect::<Result<Vec<_>, _>>()?;
    let rows = lines
        .map(|(number, line)| {
            let cells = parts(line);
            if cells.len() != columns.len() {
                return Err((number, "wrong number of cells"));
            }
            let cell = |(text, &column)| literal::read(text, Some(column)).ok_or((number, "cell is no literal"));
            cells.into_iter().zip(&columns).map(cell).collect()
        })
        .collect::<Result<_, _>>()?;
    Ok(Memory { columns, rows })
}

impl Memory {
    /// The test of memory: its first misfit.
    pub fn test(&self) -> Result<(), Fault> {
        if !(1..=4096).contains(&self.rows.len()) || self.columns.len() > 8 {
            return Err(Fault::new(32, 0, 0));
        }
        for (cycle, row) in self.rows.iter().enumerate() {
            for (column, (cell, &wanted)) in row.iter().zip(&self.columns).enumerate() {
                if cell.of_type() != wanted {
                    return Err(Fault::new(23, cycle, column));
                }
                if !cell.is_finite() {
                    return Err(Fault::new(24, cycle, column));
                }
            }
        }
        Ok(())
    }
}
