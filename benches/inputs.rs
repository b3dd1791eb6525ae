//! What both sides are given: a drawing of 64 blocks and a sheet, thrown with a fixed seed.

use crate::engine::{Block, Draft, Library, Plant, Source, Type, Value};
use crate::files;
use crate::work::Dice;

const COLUMNS: [Type; 8] = [
    Type::Binary,
    Type::Whole,
    Type::Real,
    Type::Binary,
    Type::Whole,
    Type::Real,
    Type::Real,
    Type::Binary,
];

const KINDS: [u8; 12] = [1, 2, 3, 4, 5, 6, 7, 10, 11, 12, 14, 15];

/// Lawful parameters of a kind.
fn params(kind: u8, dice: &mut Dice) -> Vec<Value> {
    let real = |n: u32| Value::Real(n as f32 / 8.0);
    match kind {
        1 => vec![dice.value(Type::Binary)],
        2 => vec![dice.value(Type::Whole)],
        3 => vec![dice.value(Type::Real)],
        10 => vec![real(dice.below(100)), real(500 + dice.below(500))],
        12 => vec![Value::Whole(1 + dice.below(16) as i16)],
        14 => vec![real(0), real(800), real(dice.below(100)), real(700 + dice.below(200))],
        15 => vec![Value::Whole(1 + dice.below(5) as i16)],
        _ => Vec::new(),
    }
}

/// A drawing of 64 blocks of all kinds, on columns of all types, which the check accepts.
fn draft(dice: &mut Dice) -> Draft {
    let kinds: Vec<u8> = (0..64).map(|i| KINDS[(i + dice.below(3) as usize) % 12]).collect();
    let ports: Vec<_> = kinds.iter().map(|k| Plant.signature(*k).expect("a known kind")).collect();
    let mut blocks = Vec::new();
    for (b, kind) in kinds.iter().enumerate() {
        let source = |wanted: &Type| {
            // A delay may be fed by any block, a feed-through one by blocks before it, so that no chain closes.
            let before = if ports[b].delaying { 64 } else { b };
            let columns = (0..8).filter(|c| COLUMNS[*c as usize] == *wanted).map(Source::Column);
            let outputs = (0..before).filter(|u| ports[*u].output == *wanted).map(|u| Source::Block(u as u8));
            let all: Vec<_> = columns.chain(outputs).collect();
            all[dice.below(all.len() as u32) as usize]
        };
        let sources = ports[b].inputs.iter().map(source).collect();
        let params = params(*kind, dice);
        let name = format!("block{b}").into_bytes();
        blocks.push(Block { kind: *kind, name, params, sources });
    }
    Draft { columns: COLUMNS.to_vec(), blocks }
}

/// The packed file of a drawing.
pub fn drawing(seed: u64) -> Vec<u8> {
    let mut file = vec![0; 2048];
    let length = files::write(&draft(&mut Dice::new(seed)), &mut file).expect("room for any file");
    file.truncate(length);
    file
}

/// The readings of a sheet, four bytes to a cell. A reading stays for some cycles, as in a plant.
pub fn readings(rows: u32, seed: u64) -> Vec<u8> {
    let mut dice = Dice::new(seed);
    let mut row = COLUMNS.map(|t| dice.value(t));
    let mut bytes = Vec::new();
    for _ in 0..rows {
        for (cell, value_type) in row.iter_mut().zip(COLUMNS) {
            if dice.below(4) == 0 {
                *cell = dice.value(value_type);
            }
            let word = match *cell {
                Value::Binary(b) => u32::from(b),
                Value::Whole(n) => u32::from(n as u16),
                Value::Real(x) => x.to_bits(),
            };
            bytes.extend(word.to_le_bytes());
        }
    }
    bytes
}
