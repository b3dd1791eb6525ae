//! Random drafts, sound and faulty.

use super::random::Random;
use super::values::{self, TYPES};
use crate::engine::draft::{Block, Draft, Source};
use crate::engine::plant::{Kind, Signature};
use crate::engine::value::{Type, Value};

/// A draft that passes the check.
pub fn draft(random: &mut Random) -> Draft {
    let count = match random.below(20) {
        0 => 64,
        1..=3 => random.between(20, 63),
        4..=8 => random.between(1, 4),
        _ => random.between(4, 20),
    };
    let columns: Vec<Type> =
        (0..random.pick(&[0, 1, 1, 2, 2, 3, 3, 4, 5, 6, 7, 8])).map(|_| random.pick(&TYPES)).collect();
    let mut kinds: Vec<Kind> = (0..count).map(|_| random.pick(&Kind::ALL)).collect();

    // A feed-through block takes its sources among columns, delays, and blocks of a lower rank.
    let mut by_rank: Vec<usize> = (0..count).collect();
    for place in (1..count).rev() {
        by_rank.swap(place, random.below(place + 1));
    }
    let mut rank = vec![0; count];
    for (place, &number) in by_rank.iter().enumerate() {
        rank[number] = place;
    }
    let sources = |number: usize, wanted: Type, kinds: &[Kind]| -> Vec<Source> {
        let free = kinds[number].signature().delaying;
        let fits = |other: usize| {
            let signature = kinds[other].signature();
            signature.output == wanted && (free || signature.delaying || rank[other] < rank[number])
        };
        let blocks = (0..count).filter(|&other| fits(other)).map(Source::Block);
        let columns = (0..columns.len()).filter(|&column| columns[column] == wanted).map(Source::Column);
        // Columns are few beside blocks.
        columns.flat_map(|column| [column; 3]).chain(blocks).collect()
    };
    // A block for which there is no source becomes a delay, which can always be fed by itself.
    for &number in &by_rank {
        let wanted = kinds[number].signature().inputs;
        if let Some(&missing) = wanted.iter().find(|&&wanted| sources(number, wanted, &kinds).is_empty()) {
            kinds[number] = delay(missing);
        }
    }
    let blocks = (0..count)
        .map(|number| Block {
            kind: kinds[number] as u8,
            name: name(random),
            parameters: parameters(random, kinds[number]),
            sources: kinds[number]
                .signature()
                .inputs
                .iter()
                .map(|&wanted| random.pick(&sources(number, wanted, &kinds)))
                .collect(),
        })
        .collect();
    Draft { columns, blocks }
}

fn delay(wanted: Type) -> Kind {
    match wanted {
        Type::Binary => Kind::Delb,
        Type::Whole => Kind::Deli,
        Type::Real => Kind::Delr,
    }
}

fn name(random: &mut Random) -> String {
    let length = random.pick(&[0, 1, 1, 2, 3, 5, 8]);
    (0..length).map(|_| random.between(32, 126) as u8 as char).collect()
}

/// Lawful parameters.
fn parameters(random: &mut Random, kind: Kind) -> Vec<Value> {
    match kind {
        Kind::Seq => vec![Value::Whole(random.between(1, 16) as i16)],
        Kind::Ondt => {
            let most = random.pick(&[3, 3, 10, 40, 32767]);
            vec![Value::Whole(random.between(1, most) as i16)]
        }
        Kind::Scale => loop {
            let parameters = match random.below(4) {
                // Slopes that carry finite inputs to infinities and to not-a-number.
                0 => {
                    let (a, b) = random.pick(&[(-3e38, 3e38), (0.0, 1.0), (1e-40, 2e-40), (3e38, -3e38)]);
                    let (c, d) = random.pick(&[(-3e38, 3e38), (0.0, 0.0), (3e38, 0.0), (1e-40, 1e30)]);
                    [a, b, c, d]
                }
                1 => [0.0, 100.0, 20.0, 80.0],
                _ => [0; 4].map(|_| values::real(random)),
            };
            let parameters = parameters.map(Value::Real).to_vec();
            if kind.is_lawful(&parameters) {
                return parameters;
            }
        },
        Kind::Limit => {
            let (low, high) = match random.below(4) {
                // An input that equals a limit is shown with its own sign of zero.
                0 => random.pick(&[(0.0, 100.0), (-0.0, 100.0), (-50.0, 0.0), (-50.0, -0.0), (0.0, -0.0)]),
                _ => (values::real(random), values::real(random)),
            };
            let (low, high) = if low <= high { (low, high) } else { (high, low) };
            vec![Value::Real(low), Value::Real(high)]
        }
        _ => kind.signature().parameters.iter().map(|&wanted| values::value(random, wanted)).collect(),
    }
}

/// Spoils a draft within its limits, so that the check has something to find.
pub fn spoil(random: &mut Random, draft: &mut Draft) {
    let columns = draft.columns.len();
    let count = draft.blocks.len();
    let kinds: Vec<Option<Kind>> = draft.blocks.iter().map(|block| Kind::numbered(block.kind)).collect();
    let number = random.below(count);
    let block = &mut draft.blocks[number];
    match random.weighted(&[2, 1, 2, 2, 2, 3, 3, 3, 6]) {
        0 => block.kind = random.pick(&[0, 8, 9, 13, 16, 40, 63]),
        1 => block.kind = random.below(64) as u8,
        2 if block.sources.len() < 4 && random.chance(50) => block.sources.push(Source::Column(0)),
        2 => drop(block.sources.pop()),
        3 if block.parameters.len() < 4 && random.chance(50) => block.parameters.push(Value::Whole(1)),
        3 => drop(block.parameters.pop()),
        4 => {
            let typed: Vec<usize> = (0..count).filter(|&number| !draft.blocks[number].parameters.is_empty()).collect();
            if !typed.is_empty() {
                let parameters = &mut draft.blocks[random.pick(&typed)].parameters;
                let (place, wanted) = (random.below(parameters.len()), random.pick(&TYPES));
                parameters[place] = values::value(random, wanted);
            }
        }
        5 => {
            let bound = [Kind::Limit, Kind::Seq, Kind::Scale, Kind::Ondt].map(Some);
            let bound: Vec<usize> = (0..count).filter(|&number| bound.contains(&kinds[number])).collect();
            if !bound.is_empty() {
                let number = random.pick(&bound);
                unlawful(random, &mut draft.blocks[number].parameters);
            }
        }
        6 => {
            let missing = [Source::Column(columns), Source::Block(count), Source::Column(127), Source::Block(127)];
            if let Some(source) = some_source(random, block) {
                *source = random.pick(&missing);
            }
        }
        7 => {
            let other = if columns > 0 && random.chance(50) {
                Source::Column(random.below(columns))
            } else {
                Source::Block(random.below(count))
            };
            if let Some(source) = some_source(random, block) {
                *source = other;
            }
        }
        _ => close_chain(random, draft),
    }
}

fn some_source<'a>(random: &mut Random, block: &'a mut Block) -> Option<&'a mut Source> {
    let place = random.below(block.sources.len().max(1));
    block.sources.get_mut(place)
}

/// For the kinds that have a condition: LIMIT, SEQ, SCALE and ONDT.
fn unlawful(random: &mut Random, parameters: &mut [Value]) {
    match parameters {
        [Value::Whole(whole)] => *whole = random.pick(&[0, -1, 17, i16::MIN]),
        [low, high] => *high = Value::Real(low.real() - 1.0),
        [a, b, ..] => *a = if b.real() == 0.0 { Value::Real(-0.0) } else { *b },
        _ => {}
    }
}

/// Feeds a feed-through block from the end of a chain that begins with it, if the types allow.
fn close_chain(random: &mut Random, draft: &mut Draft) {
    let through: Vec<(usize, Signature)> = (0..)
        .zip(&draft.blocks)
        .filter_map(|(number, block)| Some((number, Kind::numbered(block.kind)?.signature())))
        .filter(|(_, signature)| !signature.delaying)
        .collect();
    if through.is_empty() {
        return;
    }
    let (first, Signature { inputs, mut output, .. }) = random.pick(&through);
    let mut last = first;
    for _ in 0..random.below(6) {
        let is_fed = |number: usize| draft.blocks[number].sources.contains(&Source::Block(last));
        let fed: Vec<_> = through.iter().filter(|(number, _)| is_fed(*number)).collect();
        if !fed.is_empty() {
            let next = random.pick(&fed);
            (last, output) = (next.0, next.1.output);
        }
    }
    let input = inputs.iter().position(|&wanted| wanted == output);
    if let Some(source) = input.and_then(|input| draft.blocks[first].sources.get_mut(input)) {
        *source = Source::Block(last);
    }
}
