//! Which cycles a keyframe store holds a row for, and so how far a move or a rework has to go. The states in the rows
//! do not matter here: what a block shows is the walker's affair.

use std::collections::BTreeSet;

#[derive(Clone, Debug)]
pub enum Store {
    None,
    One(Option<usize>),
    Table { places: usize, held: BTreeSet<usize> },
}

/// Where work started from.
#[derive(Clone, Copy, Debug, PartialEq, Eq)]
pub enum Start {
    First,
    Playhead,
    Row,
}

/// How many cycles were worked, and from where.
#[derive(Clone, Copy, Debug)]
pub struct Worked {
    pub cycles: usize,
    pub start: Start,
}

impl Worked {
    pub const NOTHING: Worked = Worked { cycles: 0, start: Start::Playhead };
}

impl Store {
    pub const DEFAULT: Store = Store::table(128);

    const fn table(places: usize) -> Store {
        Store::Table { places, held: BTreeSet::new() }
    }

    pub fn named(name: &str) -> Option<Store> {
        match name {
            "none" => Some(Store::None),
            "one" => Some(Store::One(None)),
            _ => {
                let places = name.strip_prefix("table:")?.parse().ok()?;
                (places <= 4096).then_some(Store::table(places))
            }
        }
    }

    /// Puts a row of this cycle, if the store takes it.
    fn put(&mut self, cycle: usize) {
        match self {
            Store::None => {}
            Store::One(held) => *held = Some(cycle),
            Store::Table { places, held } => {
                if held.len() < *places {
                    held.insert(cycle);
                }
            }
        }
    }

    /// The highest held cycle at or below this one.
    fn find(&self, cycle: usize) -> Option<usize> {
        match self {
            Store::None => None,
            Store::One(held) => held.filter(|&held| held <= cycle),
            Store::Table { held, .. } => held.range(..=cycle).next_back().copied(),
        }
    }

    fn cut(&mut self, above: usize) {
        match self {
            Store::None => {}
            Store::One(held) => *held = held.filter(|&held| held <= above),
            Store::Table { held, .. } => held.retain(|&held| held <= above),
        }
    }

    /// A move of the playhead.
    pub fn jump(&mut self, playhead: usize, to: usize) -> Worked {
        let playhead = (playhead <= to).then_some((playhead, Start::Playhead));
        self.work(playhead, to)
    }

    /// A change of readings whose lowest cycle is `lowest`.
    pub fn change(&mut self, playhead: usize, lowest: usize) -> Worked {
        self.cut(lowest);
        if lowest < playhead {
            self.work(None, playhead)
        } else {
            Worked::NOTHING
        }
    }

    /// Works from the highest start up to `to`, putting rows at the cycles reached.
    fn work(&mut self, playhead: Option<(usize, Start)>, to: usize) -> Worked {
        let row = self.find(to).map(|cycle| (cycle, Start::Row));
        // Of equal cycles `max_by_key` takes the last: the playhead.
        let (from, start) = [Some((0, Start::First)), row, playhead]
            .into_iter()
            .flatten()
            .max_by_key(|&(cycle, _)| cycle)
            .expect("cycle 0 is always a start");
        (from + 1..=to).filter(|cycle| cycle % 32 == 0).for_each(|cycle| self.put(cycle));
        Worked { cycles: to - from, start }
    }
}
