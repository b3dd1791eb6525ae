//! A block diagram as it was read, not yet checked.

use super::value::{Type, Value};

#[derive(Clone, Debug)]
pub struct Draft {
    pub columns: Vec<Type>,
    pub blocks: Vec<Block>,
}

#[derive(Clone, Debug)]
pub struct Block {
    pub kind: u8,
    pub name: String,
    pub parameters: Vec<Value>,
    pub sources: Vec<Source>,
}

#[derive(Clone, Copy, Debug, PartialEq, Eq)]
pub enum Source {
    Column(usize),
    Block(usize),
}
