//! Packed files, read and written as usual in Rust.

use crate::engine::{Block, Draft, Fault, Source, Type, Value};

/// A file, and the bit that is read next.
struct Bits<'a> {
    file: &'a [u8],
    at: usize,
}

impl<'a> Bits<'a> {
    /// The next field of up to 32 bits, the most significant first.
    fn field(&mut self, width: usize) -> Result<u32, Fault> {
        let end = self.at + width;
        if end > 8 * self.file.len() {
            return Err(Fault(1, self.at, 0));
        }
        let mut bits = 0u64;
        for byte in &self.file[self.at / 8..end.div_ceil(8)] {
            bits = bits << 8 | u64::from(*byte);
        }
        let past = end.next_multiple_of(8) - end;
        self.at = end;
        Ok((bits >> past & ((1 << width) - 1)) as u32)
    }

    fn count(&mut self, width: usize, least: u32, most: u32) -> Result<usize, Fault> {
        let at = self.at;
        let count = self.field(width)?;
        if count < least || count > most {
            return Err(Fault(3, at, 0));
        }
        Ok(count as usize)
    }

    /// Zero bits, fewer than eight, which share a byte with the field before them.
    fn zeros(&mut self, width: usize) -> Result<(), Fault> {
        let bits = self.field(width)?;
        if bits != 0 {
            return Err(Fault(5, self.at - 1 - bits.ilog2() as usize, 0));
        }
        Ok(())
    }

    fn to_next_byte(&mut self) -> Result<(), Fault> {
        self.zeros(self.at.next_multiple_of(8) - self.at)
    }

    fn value_type(&mut self) -> Result<Type, Fault> {
        match self.field(2)? {
            0 => Err(Fault(4, self.at - 2, 0)),
            1 => Ok(Type::Binary),
            2 => Ok(Type::Whole),
            _ => Ok(Type::Real),
        }
    }

    fn source(&mut self) -> Result<Source, Fault> {
        let is_block = self.field(1)? == 1;
        let number = self.field(7)? as u8;
        Ok(if is_block { Source::Block(number) } else { Source::Column(number) })
    }

    fn param(&mut self) -> Result<Value, Fault> {
        Ok(match self.value_type()? {
            Type::Binary => Value::Binary(self.field(1)? == 1),
            Type::Whole => Value::Whole(self.field(16)? as u16 as i16),
            Type::Real => {
                let x = f32::from_bits(self.field(32)?);
                if !x.is_finite() {
                    return Err(Fault(6, self.at - 32, 0));
                }
                Value::Real(x)
            }
        })
    }

    fn name_byte(&mut self) -> Result<u8, Fault> {
        match self.field(8)? as u8 {
            byte @ 32..=126 => Ok(byte),
            _ => Err(Fault(7, self.at - 8, 0)),
        }
    }

    fn block(&mut self) -> Result<Block, Fault> {
        let kind = self.field(6)? as u8;
        let inputs = self.count(3, 0, 4)?;
        let params = self.count(3, 0, 4)?;
        let name = self.count(4, 0, 8)?;
        let sources = (0..inputs).map(|_| self.source()).collect::<Result<_, _>>()?;
        let params = (0..params).map(|_| self.param()).collect::<Result<_, _>>()?;
        self.to_next_byte()?;
        let name = (0..name).map(|_| self.name_byte()).collect::<Result<_, _>>()?;
        Ok(Block { kind, name, params, sources })
    }
}

pub fn read(file: &[u8]) -> Result<Draft, Fault> {
    let mut bits = Bits { file, at: 0 };
    if bits.field(8)? != 1 {
        return Err(Fault(2, 0, 0));
    }
    let columns = bits.count(4, 0, 8)?;
    let blocks = bits.count(7, 1, 64)?;
    bits.zeros(5)?;
    let columns = (0..columns).map(|_| bits.value_type()).collect::<Result<_, _>>()?;
    bits.to_next_byte()?;
    let blocks = (0..blocks).map(|_| bits.block()).collect::<Result<_, _>>()?;
    if bits.at < 8 * file.len() {
        return Err(Fault(8, bits.at, 0));
    }
    Ok(Draft { columns, blocks })
}

/// Memory that a file is written to, and the bit that is written next.
struct Pen<'a> {
    out: &'a mut [u8],
    at: usize,
}

impl Pen<'_> {
    /// Writes a field of up to 32 bits; false bits of a byte that is begun are there already.
    fn field(&mut self, width: usize, value: u32) {
        let mut left = width;
        while left > 0 {
            let room = 8 - self.at % 8;
            let take = left.min(room);
            let bits = (value >> (left - take)) as u8 & (0xff >> (8 - take));
            let byte = &mut self.out[self.at / 8];
            if room == 8 {
                *byte = 0;
            }
            *byte |= bits << (room - take);
            self.at += take;
            left -= take;
        }
    }

    fn to_next_byte(&mut self) {
        self.field(self.at.next_multiple_of(8) - self.at, 0);
    }

    fn param(&mut self, value: Value) {
        match value {
            Value::Binary(b) => {
                self.field(2, 1);
                self.field(1, u32::from(b));
            }
            Value::Whole(n) => {
                self.field(2, 2);
                self.field(16, u32::from(n as u16));
            }
            Value::Real(x) => {
                self.field(2, 3);
                self.field(32, x.to_bits());
            }
        }
    }

    fn block(&mut self, block: &Block) {
        self.field(6, u32::from(block.kind));
        self.field(3, block.sources.len() as u32);
        self.field(3, block.params.len() as u32);
        self.field(4, block.name.len() as u32);
        for source in &block.sources {
            match *source {
                Source::Column(n) => self.field(8, u32::from(n)),
                Source::Block(n) => self.field(8, 128 | u32::from(n)),
            }
        }
        for param in &block.params {
            self.param(*param);
        }
        self.to_next_byte();
        for byte in &block.name {
            self.field(8, u32::from(*byte));
        }
    }
}

/// The length of a draft's file.
fn length(draft: &Draft) -> usize {
    let block = |b: &Block| {
        let params = b.params.iter().map(|v| match v {
            Value::Binary(_) => 3,
            Value::Whole(_) => 18,
            Value::Real(_) => 34,
        });
        (16 + 8 * b.sources.len() + params.sum::<usize>()).div_ceil(8) + b.name.len()
    };
    3 + (2 * draft.columns.len()).div_ceil(8) + draft.blocks.iter().map(block).sum::<usize>()
}

/// Writes the file to the front of the memory; memory that is too short is left as it was.
pub fn write(draft: &Draft, out: &mut [u8]) -> Result<usize, Fault> {
    let length = length(draft);
    let Some(out) = out.get_mut(..length) else {
        return Err(Fault(34, 0, 0));
    };
    let mut pen = Pen { out, at: 0 };
    pen.field(8, 1);
    pen.field(4, draft.columns.len() as u32);
    pen.field(7, draft.blocks.len() as u32);
    pen.field(5, 0);
    for column in &draft.columns {
        pen.field(2, *column as u32 + 1);
    }
    pen.to_next_byte();
    for block in &draft.blocks {
        pen.block(block);
    }
    Ok(length)
}
