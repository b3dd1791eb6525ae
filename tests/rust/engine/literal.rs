//! Values as they are written in sheets and scripts.

use super::value::{Type, Value};

/// The value of a literal for a column of this type, or for one that is not there. A literal of another type than
/// the column's keeps its own type.
pub fn read(text: &str, column: Option<Type>) -> Option<Value> {
    let word = || match text {
        "off" | "false" => Some(Value::Binary(false)),
        "on" | "true" => Some(Value::Binary(true)),
        _ => None,
    };
    let digit = || match text {
        "0" => Some(Value::Binary(false)),
        "1" => Some(Value::Binary(true)),
        _ => None,
    };
    let whole = || text.parse().ok().map(Value::Whole);
    let real = || text.parse().ok().map(Value::Real);
    let wanted = match column {
        Some(Type::Binary) => digit(),
        Some(Type::Real) => real(),
        Some(Type::Whole) | None => None,
    };
    wanted.or_else(word).or_else(whole).or_else(real)
}
