//! The packed file of a draft, read field by field up to its first fault.

use super::draft::{Block, Draft, Source};
use super::outcome::Fault;
use super::value::{Type, Value};

pub fn read(file: &[u8]) -> Result<Draft, Fault> {
    let mut bits = Bits { file, at: 0 };
    bits.field(8, 2, |edition| edition == 1)?;
    let columns = bits.field(4, 3, |count| count <= 8)?;
    let blocks = bits.field(7, 3, |count| (1..=64).contains(&count))?;
    bits.zeros()?;
    let columns = (0..columns).map(|_| bits.value_type()).collect::<Result<_, _>>()?;
    bits.zeros()?;
    let blocks = (0..blocks).map(|_| bits.block()).collect::<Result<_, _>>()?;
    if bits.at < 8 * file.len() {
        return Err(Fault::new(8, bits.at, 0));
    }
    Ok(Draft { columns, blocks })
}

/// A file, and the bit that is read next.
struct Bits<'a> {
    file: &'a [u8],
    at: usize,
}

impl Bits<'_> {
    /// The next field of `width` bits. `number` is the fault of one that is not `sound`.
    fn field(&mut self, width: usize, number: u8, sound: impl Fn(u32) -> bool) -> Result<u32, Fault> {
        let place = self.at..self.at + width;
        if place.end > 8 * self.file.len() {
            return Err(Fault::new(1, place.start, 0));
        }
        let bit = |at: usize| u32::from(self.file[at / 8] >> (7 - at % 8) & 1);
        let field = place.clone().fold(0, |field, at| field << 1 | bit(at));
        if !sound(field) {
            return Err(Fault::new(number, place.start, 0));
        }
        self.at = place.end;
        Ok(field)
    }

    fn any(&mut self, width: usize) -> Result<u32, Fault> {
        self.field(width, 0, |_| true)
    }

    /// The zero bits to the next byte, each a field of its own.
    fn zeros(&mut self) -> Result<(), Fault> {
        while self.at % 8 != 0 {
            self.field(1, 5, |bit| bit == 0)?;
        }
        Ok(())
    }

    fn value_type(&mut self) -> Result<Type, Fault> {
        Ok(match self.field(2, 4, |code| code != 0)? {
            1 => Type::Binary,
            2 => Type::Whole,
            _ => Type::Real,
        })
    }

    fn block(&mut self) -> Result<Block, Fault> {
        let kind = self.any(6)? as u8;
        let inputs = self.field(3, 3, |count| count <= 4)?;
        let parameters = self.field(3, 3, |count| count <= 4)?;
        let length = self.field(4, 3, |count| count <= 8)?;
        let sources = (0..inputs).map(|_| self.source()).collect::<Result<_, _>>()?;
        let parameters = (0..parameters).map(|_| self.parameter()).collect::<Result<_, _>>()?;
        self.zeros()?;
        let name = (0..length).map(|_| self.letter()).collect::<Result<_, _>>()?;
        Ok(Block { kind, name, parameters, sources })
    }

    fn source(&mut self) -> Result<Source, Fault> {
        let is_block = self.any(1)? == 1;
        let number = self.any(7)? as usize;
        Ok(if is_block { Source::Block(number) } else { Source::Column(number) })
    }

    fn parameter(&mut self) -> Result<Value, Fault> {
        Ok(match self.value_type()? {
            Type::Binary => Value::Binary(self.any(1)? == 1),
            Type::Whole => Value::Whole(self.any(16)? as u16 as i16),
            Type::Real => Value::Real(f32::from_bits(self.field(32, 6, |bits| f32::from_bits(bits).is_finite())?)),
        })
    }

    fn letter(&mut self) -> Result<char, Fault> {
        let byte = self.field(8, 7, |byte| (32..=126).contains(&byte))?;
        Ok(char::from(byte as u8))
    }
}
