//! The check of a draft in its three rounds, and the drawing that passed it.

use super::draft::{Draft, Source};
use super::outcome::Fault;
use super::plant::Kind;
use super::value::{Type, Value};

pub struct Drawing {
    pub columns: Vec<Type>,
    pub blocks: Vec<Block>,
    /// Every block once, each feed-through block after its sources.
    pub order: Vec<usize>,
}

pub struct Block {
    pub kind: Kind,
    pub name: String,
    pub parameters: Vec<Value>,
    pub sources: Vec<Source>,
}

pub fn check(draft: Draft) -> Result<Drawing, Fault> {
    let blocks = suit_library(&draft)?;
    sources_fit(&draft.columns, &blocks)?;
    let order = place(&blocks)?;
    Ok(Drawing { columns: draft.columns, blocks, order })
}

/// Round 1: each block by itself.
fn suit_library(draft: &Draft) -> Result<Vec<Block>, Fault> {
    draft
        .blocks
        .iter()
        .enumerate()
        .map(|(number, block)| {
            let kind = Kind::numbered(block.kind).ok_or(Fault::new(11, number, 0))?;
            let signature = kind.signature();
            if block.sources.len() != signature.inputs.len() {
                return Err(Fault::new(12, number, 0));
            }
            if block.parameters.len() != signature.parameters.len() {
                return Err(Fault::new(13, number, 0));
            }
            let mut pairs = block.parameters.iter().zip(signature.parameters);
            if let Some(place) = pairs.position(|(value, &wanted)| value.of_type() != wanted) {
                return Err(Fault::new(13, number, place));
            }
            if !kind.is_lawful(&block.parameters) {
                return Err(Fault::new(14, number, 0));
            }
            Ok(Block {
                kind,
                name: block.name.clone(),
                parameters: block.parameters.clone(),
                sources: block.sources.clone(),
            })
        })
        .collect()
}

/// Round 2: each source is there and has its input's type.
fn sources_fit(columns: &[Type], blocks: &[Block]) -> Result<(), Fault> {
    for (number, block) in blocks.iter().enumerate() {
        for (input, (source, &wanted)) in block.sources.iter().zip(block.kind.signature().inputs).enumerate() {
            let found = match *source {
                Source::Column(column) => columns.get(column).copied(),
                Source::Block(other) => blocks.get(other).map(|other| other.kind.signature().output),
            };
            match found {
                None => return Err(Fault::new(15, number, input)),
                Some(found) if found != wanted => return Err(Fault::new(16, number, input)),
                Some(_) => {}
            }
        }
    }
    Ok(())
}

/// Round 3: an order, or the lowest block that none can place. Which blocks are left does not depend on the way of
/// placing, and neither do the values; the highest goes first here, so that another order than the rules' is tried.
fn place(blocks: &[Block]) -> Result<Vec<usize>, Fault> {
    let mut order = Vec::with_capacity(blocks.len());
    let mut placed = vec![false; blocks.len()];
    let may_be_placed = |number: usize, placed: &[bool]| {
        let source_placed = |source: &Source| match *source {
            Source::Column(_) => true,
            Source::Block(other) => placed[other],
        };
        blocks[number].kind.signature().delaying || blocks[number].sources.iter().all(source_placed)
    };
    while let Some(next) = (0..blocks.len()).rev().find(|&number| !placed[number] && may_be_placed(number, &placed)) {
        placed[next] = true;
        order.push(next);
    }
    match placed.iter().position(|&placed| !placed) {
        None => Ok(order),
        Some(left) => Err(Fault::new(17, left, 0)),
    }
}
