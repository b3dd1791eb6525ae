//! A player's calls: the walker judges them and says what is shown, the store how far they had to work.

use super::drawing::Drawing;
use super::keyframes::{Store, Worked};
use super::outcome::{Answer, Fault};
use super::script::{Call, Name};
use super::sheet::Memory;
use super::walker::{Walker, Write};
use std::collections::HashMap;

pub struct Player<'a> {
    pub walker: Walker<'a>,
    store: Store,
    marks: &'a HashMap<Name, usize>,
    hand: Vec<usize>,
}

impl<'a> Player<'a> {
    pub fn open(
        drawing: &'a Drawing,
        sheet: &'a Memory,
        marks: &'a HashMap<Name, usize>,
        store: Store,
    ) -> Result<Self, Fault> {
        if sheet.columns != drawing.columns {
            return Err(Fault::new(31, 0, 0));
        }
        Ok(Player { walker: Walker::new(drawing, sheet), store, marks, hand: Vec::new() })
    }

    pub fn make(&mut self, call: &Call) -> Answer {
        self.answer(call).unwrap_or_else(Answer::Refused)
    }

    fn answer(&mut self, call: &Call) -> Result<Answer, Fault> {
        match *call {
            Call::Step => self.jump(self.walker.cycle + 1),
            Call::Jump(to) => self.jump(to),
            Call::Goto(mark) => self.jump(*self.marks.get(&mark).ok_or(Fault::new(29, 0, 0))?),
            Call::Write { cycle, column, value } => {
                self.walker.write(Write { cycle, column, value })?;
                Ok(self.changed(Some(cycle)))
            }
            Call::Back => {
                let struck = self.walker.take_back()?;
                Ok(self.changed(Some(struck)))
            }
            Call::Begin => {
                let slip = self.walker.begin()?;
                self.hand.push(slip);
                Ok(Answer::Slip(slip))
            }
            Call::Confirm(place) => self.spend(place, |walker, slip| walker.confirm(slip).map(|()| None)),
            Call::Drop(place) => self.spend(place, |walker, slip| walker.drop(slip)),
            Call::Show(block) => self.walker.show(block).map(Answer::Shown),
            Call::Tally(column) => self.walker.tally(column).map(Answer::Count),
        }
    }

    fn jump(&mut self, to: usize) -> Result<Answer, Fault> {
        let playhead = self.walker.cycle;
        self.walker.jump(to)?;
        Ok(Answer::Worked(self.store.jump(playhead, to)))
    }

    fn changed(&mut self, lowest: Option<usize>) -> Answer {
        let worked = lowest.map(|lowest| self.store.change(self.walker.cycle, lowest));
        Answer::Worked(worked.unwrap_or(Worked::NOTHING))
    }

    /// Ends the trial by a slip in the hand, the newest where no place is named. A refused slip stays in its place.
    fn spend(
        &mut self,
        place: Option<usize>,
        end: fn(&mut Walker, usize) -> Result<Option<usize>, Fault>,
    ) -> Result<Answer, Fault> {
        let Some(place) = place.or(self.hand.len().checked_sub(1)).filter(|&place| place < self.hand.len()) else {
            return Ok(Answer::NoSlip);
        };
        let lowest = end(&mut self.walker, self.hand[place])?;
        self.hand.remove(place);
        Ok(self.changed(lowest))
    }
}
