//! The pieces of work that are timed, over the Rust engine: the same as the crate `bench` does over the proved one.

use crate::engine::{check, Draft, Drawing, Fault, Library, Plant, Player, Sheet, Source, Store, Table, Type, Value};
use crate::files;

/// A checksum of values and numbers, in their order.
struct Checksum(u64);

impl Checksum {
    fn new() -> Checksum {
        Checksum(0xcbf2_9ce4_8422_2325)
    }

    fn add(&mut self, number: u64) {
        self.0 = (self.0 ^ number).wrapping_mul(0x100_0000_01b3);
    }

    fn add_value(&mut self, value: Value) {
        self.add(match value {
            Value::Binary(b) => u64::from(b),
            Value::Whole(n) => 0x1_0000_0000 + u64::from(n as u16),
            Value::Real(x) if x.is_nan() => 0x2_7fc0_0000,
            Value::Real(x) => 0x2_0000_0000 + u64::from(x.to_bits()),
        });
    }

    fn total(&self) -> u64 {
        self.0.max(1)
    }
}

/// Numbers that look thrown, the same for the same seed.
pub struct Dice(u64);

impl Dice {
    pub fn new(seed: u64) -> Dice {
        Dice(seed)
    }

    /// A number below `count`, 0 where there is none.
    pub fn below(&mut self, count: u32) -> u32 {
        if count == 0 {
            return 0;
        }
        self.0 = self.0.wrapping_mul(0x5851_f42d_4c95_7f2d).wrapping_add(0x1405_7b7e_f767_814f);
        ((self.0 >> 33) % u64::from(count)) as u32
    }

    pub fn value(&mut self, value_type: Type) -> Value {
        match value_type {
            Type::Binary => Value::Binary(self.below(2) == 1),
            Type::Whole => Value::Whole(self.below(2000) as i16),
            Type::Real => Value::Real(self.below(2000) as f32 / 16.0),
        }
    }
}

fn cells(types: &[Type], bytes: &[u8]) -> Vec<Value> {
    let words = bytes.chunks_exact(4).map(|b| u32::from_le_bytes(b.try_into().expect("four bytes")));
    types
        .iter()
        .cycle()
        .zip(words)
        .map(|(t, word)| match t {
            Type::Binary => Value::Binary(word % 2 == 1),
            Type::Whole => Value::Whole(word as u16 as i16),
            Type::Real => Value::Real(f32::from_bits(word)),
        })
        .collect()
}

fn load(file: &[u8]) -> Result<Drawing, Fault> {
    check(&Plant, files::read(file)?)
}

fn show_all<L: Library, S: Store>(player: &Player<L, S>, sum: &mut Checksum) {
    for b in 0..64 {
        if let Ok(value) = player.show(b) {
            sum.add_value(value);
        }
    }
}

/// A player opened on the drawing of a file, and a sheet of readings.
fn stage(file: &[u8], readings: &[u8], rows: u32, table: usize) -> Result<(Player<Plant, Table>, Sheet), Fault> {
    let drawing = load(file)?;
    let columns = drawing.draft.columns.clone();
    let cells = cells(&columns, readings);
    let sheet = Sheet::new(columns, rows, cells)?;
    let player = Player::open(Plant, Table::new(table), drawing, &sheet)?;
    Ok((player, sheet))
}

pub fn steps(file: &[u8], readings: &[u8], rows: u32, count: u32) -> Result<u64, Fault> {
    let (mut player, sheet) = stage(file, readings, rows, 0)?;
    let mut sum = Checksum::new();
    for _ in 0..count {
        player.jump(&sheet, 0)?;
        for _ in 1..sheet.rows() {
            sum.add(u64::from(player.step(&sheet)?));
            show_all(&player, &mut sum);
        }
    }
    Ok(sum.total())
}

fn jump_often(player: &mut Player<Plant, Table>, sheet: &Sheet, count: u32) -> Result<u64, Fault> {
    let mut sum = Checksum::new();
    for _ in 0..count {
        player.jump(sheet, 0)?;
        sum.add(u64::from(player.jump(sheet, sheet.rows() - 1)?));
        show_all(player, &mut sum);
    }
    Ok(sum.total())
}

pub fn jump(file: &[u8], readings: &[u8], rows: u32, count: u32) -> Result<u64, Fault> {
    let (mut player, sheet) = stage(file, readings, rows, 0)?;
    jump_often(&mut player, &sheet, count)
}

pub fn jumps(file: &[u8], readings: &[u8], rows: u32, count: u32, seed: u64) -> Result<u64, Fault> {
    let (mut player, sheet) = stage(file, readings, rows, 128)?;
    let mut dice = Dice::new(seed);
    let mut sum = Checksum::new();
    for _ in 0..count {
        sum.add(u64::from(player.jump(&sheet, dice.below(sheet.rows()))?));
        show_all(&player, &mut sum);
    }
    Ok(sum.total())
}

fn write_thrown(player: &mut Player<Plant, Table>, sheet: &mut Sheet, dice: &mut Dice) -> Result<u32, Fault> {
    let cycle = dice.below(sheet.rows());
    let column = dice.below(sheet.columns().len() as u32);
    let Some(value_type) = sheet.columns().get(column as usize) else {
        return Err(Fault(22, cycle as usize, column as usize));
    };
    let value = dice.value(*value_type);
    player.write(sheet, cycle, column, value)
}

pub fn rework(file: &[u8], readings: &[u8], rows: u32, count: u32, seed: u64) -> Result<u64, Fault> {
    let (mut player, mut sheet) = stage(file, readings, rows, 128)?;
    let mut dice = Dice::new(seed);
    let mut sum = Checksum::new();
    player.jump(&sheet, sheet.rows() - 1)?;
    for _ in 0..count {
        sum.add(u64::from(write_thrown(&mut player, &mut sheet, &mut dice)?));
        show_all(&player, &mut sum);
    }
    for _ in 0..count {
        sum.add(u64::from(player.take_back(&mut sheet)?));
        show_all(&player, &mut sum);
    }
    Ok(sum.total())
}

pub fn standing(file: &[u8], readings: &[u8], rows: u32, count: u32, seed: u64) -> Result<u64, Fault> {
    let (mut player, mut sheet) = stage(file, readings, rows, 0)?;
    let mut dice = Dice::new(seed);
    for _ in 0..1024 {
        write_thrown(&mut player, &mut sheet, &mut dice)?;
    }
    jump_often(&mut player, &sheet, count)
}

fn add_draft(draft: &Draft, sum: &mut Checksum) {
    sum.add(draft.columns.len() as u64);
    for block in &draft.blocks {
        sum.add(u64::from(block.kind));
        for source in &block.sources {
            sum.add(match *source {
                Source::Column(n) => u64::from(n),
                Source::Block(n) => 256 + u64::from(n),
            });
        }
        for param in &block.params {
            sum.add_value(*param);
        }
        for byte in &block.name {
            sum.add(u64::from(*byte));
        }
    }
}

pub fn read(file: &[u8], count: u32) -> Result<u64, Fault> {
    let mut sum = Checksum::new();
    for _ in 0..count {
        add_draft(&files::read(file)?, &mut sum);
    }
    Ok(sum.total())
}

pub fn load_often(file: &[u8], count: u32) -> Result<u64, Fault> {
    let mut sum = Checksum::new();
    for _ in 0..count {
        for block in load(file)?.order {
            sum.add(block as u64);
        }
    }
    Ok(sum.total())
}

pub fn write(file: &[u8], count: u32) -> Result<u64, Fault> {
    let draft = files::read(file)?;
    let mut memory = vec![0; 2048];
    let mut sum = Checksum::new();
    for _ in 0..count {
        sum.add(files::write(&draft, &mut memory)? as u64);
    }
    for byte in &memory {
        sum.add(u64::from(*byte));
    }
    Ok(sum.total())
}
