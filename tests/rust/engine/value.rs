//! The three types and their values.

use std::fmt;

#[derive(Clone, Copy, Debug, PartialEq, Eq)]
pub enum Type {
    Binary,
    Whole,
    Real,
}

#[derive(Clone, Copy, Debug)]
pub enum Value {
    Binary(bool),
    Whole(i16),
    Real(f32),
}

impl Value {
    pub fn of_type(self) -> Type {
        match self {
            Value::Binary(_) => Type::Binary,
            Value::Whole(_) => Type::Whole,
            Value::Real(_) => Type::Real,
        }
    }

    pub fn is_finite(self) -> bool {
        !matches!(self, Value::Real(real) if !real.is_finite())
    }

    // A value in a place of another type counts as zero of that place's type.

    pub fn binary(self) -> bool {
        matches!(self, Value::Binary(true))
    }

    pub fn whole(self) -> i16 {
        match self {
            Value::Whole(whole) => whole,
            _ => 0,
        }
    }

    pub fn real(self) -> f32 {
        match self {
            Value::Real(real) => real,
            _ => 0.0,
        }
    }
}

impl fmt::Display for Value {
    fn fmt(&self, f: &mut fmt::Formatter) -> fmt::Result {
        match *self {
            Value::Binary(on) => write!(f, "binary {}", u8::from(on)),
            Value::Whole(whole) => write!(f, "whole {whole}"),
            // There is one not-a-number, whatever pattern the machine computed.
            Value::Real(real) if real.is_nan() => write!(f, "real 7FC00000"),
            Value::Real(real) => write!(f, "real {:08X}", real.to_bits()),
        }
    }
}
