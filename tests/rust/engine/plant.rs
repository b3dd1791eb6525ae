//! The plant library: what each kind of block does.

use super::value::Type::{self, Binary, Real, Whole};
use super::value::Value;

#[derive(Clone, Copy, Debug, PartialEq, Eq, PartialOrd, Ord)]
pub enum Kind {
    Delb = 1,
    Deli = 2,
    Delr = 3,
    And = 4,
    Or = 5,
    Xor = 6,
    Not = 7,
    Limit = 10,
    Add = 11,
    Seq = 12,
    Scale = 14,
    Ondt = 15,
}

#[derive(Clone, Copy)]
pub struct Signature {
    pub inputs: &'static [Type],
    pub parameters: &'static [Type],
    pub output: Type,
    pub delaying: bool,
}

/// What a block keeps from one cycle to the next.
#[derive(Clone, Copy, Debug)]
pub struct State {
    value: Value,
    count: u16,
}

impl State {
    const IDLE: State = State { value: Value::Binary(false), count: 0 };
}

impl Kind {
    pub const ALL: [Kind; 12] = [
        Kind::Delb,
        Kind::Deli,
        Kind::Delr,
        Kind::And,
        Kind::Or,
        Kind::Xor,
        Kind::Not,
        Kind::Limit,
        Kind::Add,
        Kind::Seq,
        Kind::Scale,
        Kind::Ondt,
    ];

    pub fn numbered(number: u8) -> Option<Kind> {
        Kind::ALL.into_iter().find(|&kind| kind as u8 == number)
    }

    pub fn signature(self) -> Signature {
        let (inputs, parameters, output): (&[Type], &[Type], Type) = match self {
            Kind::Delb => (&[Binary], &[Binary], Binary),
            Kind::Deli => (&[Whole], &[Whole], Whole),
            Kind::Delr => (&[Real], &[Real], Real),
            Kind::And | Kind::Or | Kind::Xor => (&[Binary, Binary], &[], Binary),
            Kind::Not => (&[Binary], &[], Binary),
            Kind::Limit => (&[Real], &[Real, Real], Real),
            Kind::Add => (&[Whole, Whole], &[], Whole),
            Kind::Seq => (&[Real], &[Whole], Whole),
            Kind::Scale => (&[Real], &[Real, Real, Real, Real], Real),
            Kind::Ondt => (&[Binary], &[Whole], Binary),
        };
        let delaying = matches!(self, Kind::Delb | Kind::Deli | Kind::Delr);
        Signature { inputs, parameters, output, delaying }
    }

    pub fn is_lawful(self, parameters: &[Value]) -> bool {
        let real = |place| at(parameters, place).real();
        match self {
            Kind::Limit => real(0) <= real(1),
            Kind::Seq => (1..=16).contains(&at(parameters, 0).whole()),
            Kind::Scale => real(0) < real(1) || real(0) > real(1),
            Kind::Ondt => at(parameters, 0).whole() >= 1,
            _ => true,
        }
    }

    /// The state before cycle 0.
    pub fn first(self, parameters: &[Value]) -> State {
        match self {
            Kind::Delb | Kind::Deli | Kind::Delr => State { value: at(parameters, 0), count: 0 },
            _ => State::IDLE,
        }
    }

    /// The value that the block shows in this cycle.
    pub fn out(self, parameters: &[Value], state: State, inputs: &[Value]) -> Value {
        let binary = |place| at(inputs, place).binary();
        let parameter = |place| at(parameters, place).real();
        match self {
            Kind::Delb => Value::Binary(state.value.binary()),
            Kind::Deli => Value::Whole(state.value.whole()),
            Kind::Delr => Value::Real(state.value.real()),
            Kind::And => Value::Binary(binary(0) && binary(1)),
            Kind::Or => Value::Binary(binary(0) || binary(1)),
            Kind::Xor => Value::Binary(binary(0) != binary(1)),
            Kind::Not => Value::Binary(!binary(0)),
            Kind::Limit => Value::Real(limit(parameter(0), parameter(1), at(inputs, 0).real())),
            Kind::Add => Value::Whole(at(inputs, 0).whole().saturating_add(at(inputs, 1).whole())),
            Kind::Seq => Value::Whole(stages(at(parameters, 0).whole(), at(inputs, 0).real())),
            Kind::Scale => {
                let [a, b, c, d] = [0, 1, 2, 3].map(parameter);
                Value::Real(line(a, b, c, d, at(inputs, 0).real()))
            }
            Kind::Ondt => Value::Binary(binary(0) && timer(parameters, state, true) == 0),
        }
    }

    /// The state for the next cycle.
    pub fn next(self, parameters: &[Value], state: State, inputs: &[Value]) -> State {
        let input = at(inputs, 0);
        match self {
            Kind::Delb => State { value: Value::Binary(input.binary()), count: 0 },
            Kind::Deli => State { value: Value::Whole(input.whole()), count: 0 },
            Kind::Delr => State { value: Value::Real(input.real()), count: 0 },
            Kind::Ondt => {
                let on = input.binary();
                State { value: Value::Binary(on), count: timer(parameters, state, on) }
            }
            _ => State::IDLE,
        }
    }
}

/// An absent argument counts as zero, and so does a binary one in any other place.
fn at(arguments: &[Value], place: usize) -> Value {
    arguments.get(place).copied().unwrap_or(Value::Binary(false))
}

/// Not `clamp`: of two equal values, as +0 and -0, the input is shown.
fn limit(low: f32, high: f32, x: f32) -> f32 {
    if x < low {
        low
    } else if x > high {
        high
    } else {
        x
    }
}

fn stages(m: i16, x: f32) -> i16 {
    let percent = if x > 100.0 {
        100.0
    } else if x > 0.0 {
        x
    } else {
        0.0
    };
    let product = f32::from(m + 1) * percent;
    let on = ((product / 100.0) as u32).min(16);
    ((1u32 << on) - 1) as u16 as i16
}

fn line(a: f32, b: f32, c: f32, d: f32, x: f32) -> f32 {
    (x - a) * ((d - c) / (b - a)) + c
}

fn timer(parameters: &[Value], state: State, on: bool) -> u16 {
    match (state.value.binary(), on) {
        (_, false) => 0,
        (false, true) => at(parameters, 0).whole().unsigned_abs(),
        (true, true) => state.count.saturating_sub(1),
    }
}
