// Damaged and random packed files, and what a reader of them answers.
//
//     files DIR
//
// writes DIR/random.txt, a label and a file's bytes in hexadecimal to a line, and DIR/random.out, what becomes of
// each: the first fault with its place, or that it reads. It goes by the rules of the format alone.

use std::fmt::Write;
use std::path::Path;

/// The number of a fault and the bit it stands at.
type Fault = (u8, usize);

/// A file, and the bit that is read next.
struct Bits<'a> {
    file: &'a [u8],
    at: usize,
}

impl Bits<'_> {
    /// The next field of `width` bits, which must be as `good` says; else `number` is told.
    fn field(&mut self, width: usize, number: u8, good: impl Fn(u32) -> bool) -> Result<u32, Fault> {
        if self.at + width > 8 * self.file.len() {
            return Err((1, self.at));
        }
        let value = (self.at..self.at + width)
            .fold(0, |v, i| v << 1 | u32::from(self.file[i / 8] >> (7 - i % 8) & 1));
        if !good(value) {
            return Err((number, self.at));
        }
        self.at += width;
        Ok(value)
    }

    fn zero_bit(&mut self) -> Result<(), Fault> {
        self.field(1, 5, |v| v == 0).map(|_| ())
    }

    fn to_next_byte(&mut self) -> Result<(), Fault> {
        while self.at % 8 != 0 {
            self.zero_bit()?;
        }
        Ok(())
    }

    fn block(&mut self) -> Result<(), Fault> {
        self.field(6, 0, |_| true)?;
        let inputs = self.field(3, 3, |v| v <= 4)?;
        let parameters = self.field(3, 3, |v| v <= 4)?;
        let length = self.field(4, 3, |v| v <= 8)?;
        for _ in 0..inputs {
            self.field(8, 0, |_| true)?;
        }
        for _ in 0..parameters {
            match self.field(2, 4, |v| v != 0)? {
                1 => self.field(1, 0, |_| true)?,
                2 => self.field(16, 0, |_| true)?,
                _ => self.field(32, 6, |v| f32::from_bits(v).is_finite())?,
            };
        }
        self.to_next_byte()?;
        for _ in 0..length {
            self.field(8, 7, |v| (32..=126).contains(&v))?;
        }
        Ok(())
    }

    fn draft(&mut self) -> Result<(), Fault> {
        self.field(8, 2, |v| v == 1)?;
        let columns = self.field(4, 3, |v| v <= 8)?;
        let blocks = self.field(7, 3, |v| (1..=64).contains(&v))?;
        for _ in 0..5 {
            self.zero_bit()?;
        }
        for _ in 0..columns {
            self.field(2, 4, |v| v != 0)?;
        }
        self.to_next_byte()?;
        for _ in 0..blocks {
            self.block()?;
        }
        if self.at < 8 * self.file.len() {
            return Err((8, self.at));
        }
        Ok(())
    }
}

/// Marsaglia's generator, with a fixed seed: the files are the same at every run.
struct Random(u64);

impl Random {
    fn below(&mut self, bound: usize) -> usize {
        self.0 ^= self.0 << 13;
        self.0 ^= self.0 >> 7;
        self.0 ^= self.0 << 17;
        (self.0 >> 16) as usize % bound
    }

    /// The file of a random draft, which reads, but for its reals if they are not to be finite.
    fn sound(&mut self, finite: bool) -> Vec<u8> {
        let mut bits = Vec::new();
        let mut put = |width: usize, value: usize| bits.extend((0..width).rev().map(|i| (value >> i & 1) as u8));
        let columns = self.below(9);
        let blocks = if self.below(40) == 0 { 64 } else { 1 + self.below(4) };
        put(8, 1);
        put(4, columns);
        put(12, blocks << 5);
        for _ in 0..columns {
            put(2, 1 + self.below(3));
        }
        put((8 - 2 * columns % 8) % 8, 0);
        for _ in 0..blocks {
            let (inputs, parameters, length) = (self.below(5), self.below(5), self.below(9));
            put(6, self.below(64));
            put(3, inputs);
            put(3, parameters);
            put(4, length);
            for _ in 0..inputs {
                put(8, self.below(256));
            }
            let mut width = 0;
            for _ in 0..parameters {
                let kind = 1 + self.below(3);
                put(2, kind);
                match kind {
                    1 => put(1, self.below(2)),
                    2 => put(16, self.below(1 << 16)),
                    _ => {
                        let exponent = if finite { self.below(255) } else { 255 };
                        put(32, self.below(2) << 31 | exponent << 23 | self.below(1 << 23));
                    }
                }
                width += 2 + [1, 16, 32][kind - 1];
            }
            put((8 - width % 8) % 8, 0);
            for _ in 0..length {
                put(8, 32 + self.below(95));
            }
        }
        bits.chunks(8).map(|byte| byte.iter().fold(0, |v, bit| v << 1 | bit)).collect()
    }

    fn byte(&mut self) -> u8 {
        self.below(256) as u8
    }

    fn damage(&mut self, file: &mut Vec<u8>) {
        let at = self.below(file.len());
        match self.below(8) {
            0 => file.truncate(at),
            1 => file[at] = self.byte(),
            2 => drop(file.remove(at)),
            3 => file.insert(at, self.byte()),
            4 => file.push(self.byte()),
            // near the front, where the counts are
            5 => {
                let front = at % 8;
                if let Some(byte) = file.get_mut(front) {
                    *byte ^= 1 << self.below(8);
                }
            }
            _ => file[at] ^= 1 << self.below(8),
        }
    }

    fn file(&mut self, turn: usize) -> (&'static str, Vec<u8>) {
        match turn % 8 {
            0 => ("sound", self.sound(true)),
            // bytes without sense, from nothing or behind a sound header
            1 => ("noise", (0..self.below(24)).map(|_| self.byte()).collect()),
            2 => {
                let mut file = vec![1, 0, 0x20 << self.below(2)];
                file.extend((0..self.below(40)).map(|_| self.byte()));
                ("headed", file)
            }
            3 => ("infinite", self.sound(false)),
            _ => {
                let mut file = self.sound(true);
                for _ in 0..1 + self.below(2) {
                    if !file.is_empty() {
                        self.damage(&mut file);
                    }
                }
                ("damaged", file)
            }
        }
    }
}

fn main() -> std::io::Result<()> {
    let folder = std::env::args().nth(1).expect("usage: files DIR");
    let mut random = Random(0x9E37_79B9_7F4A_7C15);
    let (mut files, mut answers) = (String::new(), String::new());
    for turn in 0..2400 {
        let (what, file) = random.file(turn);
        let digits: String = file.iter().map(|byte| format!("{byte:02X}")).collect();
        writeln!(files, "{what}-{turn} {digits}").unwrap();
        match (Bits { file: &file, at: 0 }).draft() {
            Ok(()) => writeln!(answers, "{what}-{turn} reads same").unwrap(),
            Err((number, bit)) => writeln!(answers, "{what}-{turn} refused {number} layer 1 at {bit} 0").unwrap(),
        }
    }
    std::fs::write(Path::new(&folder).join("random.txt"), files)?;
    std::fs::write(Path::new(&folder).join("random.out"), answers)
}
