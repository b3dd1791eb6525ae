//! Random values, and the literals that stand for them.

use super::random::Random;
use crate::engine::value::{Type, Value};

pub const TYPES: [Type; 3] = [Type::Binary, Type::Whole, Type::Real];

const WHOLES: [i16; 8] = [0, 1, -1, 2, i16::MAX, i16::MIN, i16::MAX - 1, i16::MIN + 1];

const REALS: [f32; 14] = [
    0.0,
    -0.0,
    1e-45,
    -1e-45,
    f32::MIN_POSITIVE,
    1.1754942e-38,
    f32::MAX,
    f32::MIN,
    3e38,
    -3e38,
    100.0,
    100.00001,
    99.99999,
    16777217.0,
];

/// A value of this type; reals are finite.
pub fn value(random: &mut Random, wanted: Type) -> Value {
    match wanted {
        Type::Binary => Value::Binary(random.chance(60)),
        Type::Whole => Value::Whole(whole(random)),
        Type::Real => Value::Real(real(random)),
    }
}

fn whole(random: &mut Random) -> i16 {
    match random.below(4) {
        0 => random.pick(&WHOLES),
        1 => random.next() as i16,
        _ => random.between(0, 20) as i16 - 6,
    }
}

/// Mostly readings as a plant has them, and some of every class of finite reals.
pub fn real(random: &mut Random) -> f32 {
    match random.below(9) {
        0 => random.pick(&REALS),
        1 => random.pick(&[0.0, -0.0]),
        8 => any_finite(random),
        2 => near_stage(random),
        3 => random.between(0, 4000) as f32 / 32.0 - 10.0,
        4 => (random.between(0, 2000) as f32 - 400.0) / 7.0,
        _ => random.between(0, 130) as f32 - 15.0,
    }
}

fn any_finite(random: &mut Random) -> f32 {
    loop {
        let real = f32::from_bits(random.next() as u32);
        if real.is_finite() {
            return real;
        }
    }
}

/// A percentage at which SEQ changes its stage, or one of its neighbours.
fn near_stage(random: &mut Random) -> f32 {
    let stages = random.between(2, 17);
    let percent = 100.0 * random.between(1, stages) as f32 / stages as f32;
    f32::from_bits(percent.to_bits() + random.below(3) as u32 - 1)
}

/// A literal of a value of this type, for a column of this type.
pub fn literal(random: &mut Random, wanted: Type) -> String {
    match value(random, wanted) {
        Value::Binary(false) => random.word("0 off false"),
        Value::Binary(true) => random.word("1 on true"),
        Value::Whole(whole) => match random.below(8) {
            0 if whole >= 0 => format!("+{whole}"),
            1 => format!("{whole:06}"),
            _ => whole.to_string(),
        },
        Value::Real(real) => match random.below(10) {
            0 => format!("{real:e}"),
            1 => format!("{real:E}"),
            2 if real > 0.0 => format!("+{real}"),
            3 => format!("{real:?}"),
            4 => format!("{}.", real.trunc()),
            5 => format!(".{}", random.below(1000)),
            6 => digits(random),
            _ => real.to_string(),
        },
    }
}

/// More digits than a real can hold, so that reading must round. The exponent keeps it finite.
fn digits(random: &mut Random) -> String {
    let sign = random.pick(&["", "-", "+"]);
    let (whole, fraction) = (random.next(), random.next());
    let exponent = random.between(0, 80) as i32 - 64;
    format!("{sign}{whole}.{fraction}e{exponent}")
}

/// A literal that a column of this type refuses: of another type, or not finite.
pub fn refused_literal(random: &mut Random, column: Type) -> String {
    random.word(match column {
        Type::Binary => "2 -1 00 0.5 nan 1e3 +1",
        Type::Whole => "on false 32768 -32769 1.0 1e3 NaN inf",
        Type::Real => "on off true nan -NaN inf -Infinity 1e39 -3.5e38 340282357000000000000000000000000000000",
    })
}

/// Text that is no literal of any type.
pub fn no_literal(random: &mut Random) -> String {
    random.word("x On TRUE yes 1e e5 . + - 0x10 1_000 --1 1.2.3 infin 1;2 ٣ 1e5.0 nano")
}
