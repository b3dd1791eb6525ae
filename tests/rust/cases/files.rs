//! Packed files, sound and damaged.

use super::random::Random;
use crate::engine::draft::{Draft, Source};
use crate::engine::value::{Type, Value};

/// What damage a field can take.
#[derive(Clone, Copy, PartialEq, Eq)]
enum Field {
    Edition,
    Count,
    Type,
    Zero,
    Real,
    Letter,
    Other,
}

/// A file, and where its fields lie: each with its first bit and its width.
pub struct File {
    pub bytes: Vec<u8>,
    bits: usize,
    fields: Vec<(Field, usize, usize)>,
}

impl File {
    /// The packed file of a draft.
    pub fn of(draft: &Draft) -> File {
        let mut file = File { bytes: Vec::new(), bits: 0, fields: Vec::new() };
        file.push(Field::Edition, 8, 1);
        file.push(Field::Count, 4, draft.columns.len() as u32);
        file.push(Field::Count, 7, draft.blocks.len() as u32);
        file.push_zeros();
        for &column in &draft.columns {
            file.push(Field::Type, 2, code(column));
        }
        file.push_zeros();
        for block in &draft.blocks {
            file.push(Field::Other, 6, block.kind.into());
            file.push(Field::Count, 3, block.sources.len() as u32);
            file.push(Field::Count, 3, block.parameters.len() as u32);
            file.push(Field::Count, 4, block.name.len() as u32);
            for source in &block.sources {
                let (bit, number) = match *source {
                    Source::Column(number) => (0, number),
                    Source::Block(number) => (1, number),
                };
                file.push(Field::Other, 8, bit << 7 | number as u32);
            }
            for &parameter in &block.parameters {
                file.push(Field::Type, 2, code(parameter.of_type()));
                match parameter {
                    Value::Binary(on) => file.push(Field::Other, 1, on.into()),
                    Value::Whole(whole) => file.push(Field::Other, 16, (whole as u16).into()),
                    Value::Real(real) => file.push(Field::Real, 32, real.to_bits()),
                }
            }
            file.push_zeros();
            for letter in block.name.bytes() {
                file.push(Field::Letter, 8, letter.into());
            }
        }
        file
    }

    fn push(&mut self, field: Field, width: usize, content: u32) {
        self.fields.push((field, self.bits, width));
        self.bits += width;
        self.bytes.resize(self.bits.div_ceil(8), 0);
        self.put(self.bits - width, width, content);
    }

    fn push_zeros(&mut self) {
        while self.bits % 8 != 0 {
            self.push(Field::Zero, 1, 0);
        }
    }

    fn put(&mut self, at: usize, width: usize, content: u32) {
        for place in 0..width {
            let mask = 1 << (7 - (at + place) % 8);
            let byte = &mut self.bytes[(at + place) / 8];
            match content >> (width - 1 - place) & 1 {
                0 => *byte &= !mask,
                _ => *byte |= mask,
            }
        }
    }

    /// Damages the file so that the reader has something to find.
    pub fn damage(&mut self, random: &mut Random) {
        let length = self.bytes.len();
        let field = match random.below(10) {
            0 => return self.bytes.truncate(random.below(length)),
            1 => {
                let more = random.between(1, 3);
                return self.bytes.extend(random.bytes(more));
            }
            2 => return flip(random, &mut self.bytes),
            3 => {
                let noise = random.bytes(length - 3);
                return self.bytes[3..].copy_from_slice(&noise);
            }
            4 => Field::Edition,
            5 => Field::Count,
            6 => Field::Type,
            7 => Field::Zero,
            8 => Field::Real,
            _ => Field::Letter,
        };
        let places: Vec<(usize, usize)> =
            self.fields.iter().filter(|(class, ..)| *class == field).map(|&(_, at, width)| (at, width)).collect();
        if places.is_empty() {
            return flip(random, &mut self.bytes);
        }
        let (at, width) = random.pick(&places);
        let content = match field {
            Field::Type => 0,
            Field::Zero => 1,
            Field::Count => random.between((1 << width) / 2, (1 << width) - 1) as u32 * u32::from(random.chance(90)),
            Field::Real => 0x7F80_0000 | random.next() as u32 & random.pick(&[0, 1, 0x8000_0000, u32::MAX]),
            Field::Letter => random.pick(&[0, 10, 31, 127, 128, 255]),
            Field::Edition | Field::Other => random.next() as u32,
        };
        self.put(at, width, content);
    }
}

/// Flips some bits.
pub fn flip(random: &mut Random, bytes: &mut [u8]) {
    for _ in 0..random.between(1, 4) {
        let place = random.below(bytes.len());
        bytes[place] ^= 1 << random.below(8);
    }
}

fn code(of: Type) -> u32 {
    match of {
        Type::Binary => 1,
        Type::Whole => 2,
        Type::Real => 3,
    }
}
