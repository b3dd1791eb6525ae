//! The walker: the measure of what a player refuses and shows. It keeps a list of writes, a trial and a cycle, and
//! finds every value by walking from cycle 0 over the first rows with its writes applied.

use super::draft::Source;
use super::drawing::{Block, Drawing};
use super::outcome::Fault;
use super::plant::State;
use super::sheet::Memory;
use super::value::Value;

const MOST_WRITES: usize = 1024;

#[derive(Clone, Copy)]
pub struct Write {
    pub cycle: usize,
    pub column: usize,
    pub value: Value,
}

pub struct Walker<'a> {
    drawing: &'a Drawing,
    first: &'a Memory,
    writes: Vec<Write>,
    trial: Option<usize>,
    pub cycle: usize,
}

impl<'a> Walker<'a> {
    pub fn new(drawing: &'a Drawing, first: &'a Memory) -> Self {
        Walker { drawing, first, writes: Vec::new(), trial: None, cycle: 0 }
    }

    pub fn jump(&mut self, to: usize) -> Result<(), Fault> {
        if to >= self.first.rows.len() {
            return Err(Fault::new(21, to, 0));
        }
        self.cycle = to;
        Ok(())
    }

    pub fn write(&mut self, write: Write) -> Result<(), Fault> {
        let refused = |number| Err(Fault::new(number, write.cycle, write.column));
        if write.cycle >= self.first.rows.len() {
            return refused(21);
        }
        match self.first.columns.get(write.column) {
            None => return refused(22),
            Some(&wanted) if write.value.of_type() != wanted => return refused(23),
            Some(_) if !write.value.is_finite() => return refused(24),
            Some(_) if self.writes.len() == MOST_WRITES => return refused(25),
            Some(_) => {}
        }
        self.writes.push(write);
        Ok(())
    }

    /// Answers the cycle of the write that was struck out.
    pub fn take_back(&mut self) -> Result<usize, Fault> {
        if self.writes.len() == self.trial.unwrap_or(0) {
            return Err(Fault::new(26, 0, 0));
        }
        Ok(self.writes.pop().expect("a write stands").cycle)
    }

    pub fn begin(&mut self) -> Result<usize, Fault> {
        if self.trial.is_some() {
            return Err(Fault::new(27, 0, 0));
        }
        Ok(*self.trial.insert(self.writes.len()))
    }

    pub fn confirm(&mut self, slip: usize) -> Result<(), Fault> {
        if self.trial != Some(slip) {
            return Err(Fault::new(28, 0, 0));
        }
        self.trial = None;
        Ok(())
    }

    /// Answers the lowest cycle among the writes that were struck out.
    pub fn drop(&mut self, slip: usize) -> Result<Option<usize>, Fault> {
        self.confirm(slip)?;
        Ok(self.writes.drain(slip..).map(|write| write.cycle).min())
    }

    pub fn show(&self, block: usize) -> Result<Value, Fault> {
        self.values().get(block).copied().ok_or(Fault::new(33, 0, 0))
    }

    pub fn tally(&self, column: usize) -> Result<usize, Fault> {
        if column >= self.first.columns.len() {
            return Err(Fault::new(22, 0, column));
        }
        Ok(self.writes.iter().filter(|write| write.column == column).count())
    }

    /// What every block shows at the walker's cycle.
    pub fn values(&self) -> Vec<Value> {
        let mut rows = self.first.rows[..=self.cycle].to_vec();
        for write in self.writes.iter().filter(|write| write.cycle <= self.cycle) {
            rows[write.cycle][write.column] = write.value;
        }
        let (now, past) = rows.split_last().expect("a sheet has rows");
        let blocks = &self.drawing.blocks;
        let mut states: Vec<State> = blocks.iter().map(|block| block.kind.first(&block.parameters)).collect();
        for row in past {
            let values = self.solve(&states, row);
            for (block, state) in blocks.iter().zip(&mut states) {
                *state = block.kind.next(&block.parameters, *state, &inputs(block, row, &values));
            }
        }
        self.solve(&states, now)
    }

    fn solve(&self, states: &[State], row: &[Value]) -> Vec<Value> {
        // Only delaying blocks are worked before their sources, and these do not look at their inputs.
        let mut values = vec![Value::Binary(false); states.len()];
        for &number in &self.drawing.order {
            let block = &self.drawing.blocks[number];
            values[number] = block.kind.out(&block.parameters, states[number], &inputs(block, row, &values));
        }
        values
    }
}

fn inputs(block: &Block, row: &[Value], values: &[Value]) -> [Value; 4] {
    let mut inputs = [Value::Binary(false); 4];
    for (input, source) in inputs.iter_mut().zip(&block.sources) {
        *input = match *source {
            Source::Column(column) => row[column],
            Source::Block(other) => values[other],
        };
    }
    inputs
}
