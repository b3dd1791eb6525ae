//! The engine's rules once more, written as usual in Rust: what the proved engine is measured against.

use std::collections::BTreeMap;

#[derive(Clone, Copy, PartialEq, Eq, Debug)]
pub enum Type {
    Binary,
    Whole,
    Real,
}

#[derive(Clone, Copy, PartialEq, Debug)]
pub enum Value {
    Binary(bool),
    Whole(i16),
    Real(f32),
}

impl Type {
    pub fn zero(self) -> Value {
        match self {
            Type::Binary => Value::Binary(false),
            Type::Whole => Value::Whole(0),
            Type::Real => Value::Real(0.0),
        }
    }
}

impl Value {
    pub fn type_of(self) -> Type {
        match self {
            Value::Binary(_) => Type::Binary,
            Value::Whole(_) => Type::Whole,
            Value::Real(_) => Type::Real,
        }
    }

    fn is_finite(self) -> bool {
        match self {
            Value::Real(x) => x.is_finite(),
            _ => true,
        }
    }

    /// The value where it has the type, else zero of the type.
    fn coerced(self, to: Type) -> Value {
        if self.type_of() == to { self } else { to.zero() }
    }

    fn binary(self) -> bool {
        matches!(self, Value::Binary(true))
    }
}

#[derive(Clone, Copy, PartialEq, Debug)]
pub struct State {
    pub value: Value,
    pub count: u16,
}

const IDLE: State = State { value: Value::Binary(false), count: 0 };

/// The most blocks that a drawing has.
const BLOCKS: usize = 64;

#[derive(Clone, Copy, PartialEq, Eq, Debug)]
pub enum Source {
    Column(u8),
    Block(u8),
}

#[derive(Clone, PartialEq, Debug)]
pub struct Block {
    pub kind: u8,
    pub name: Vec<u8>,
    pub params: Vec<Value>,
    pub sources: Vec<Source>,
}

#[derive(Clone, PartialEq, Debug)]
pub struct Draft {
    pub columns: Vec<Type>,
    pub blocks: Vec<Block>,
}

#[derive(Clone, Copy, PartialEq, Eq, Debug)]
pub struct Signature {
    pub inputs: &'static [Type],
    pub params: &'static [Type],
    pub output: Type,
    pub delaying: bool,
}

/// A fault: its number and its place.
#[derive(Clone, Copy, PartialEq, Eq, Debug)]
pub struct Fault(pub u8, pub usize, pub usize);

/// A block library: what its five functions answer for every argument.
pub trait Library {
    fn signature(&self, kind: u8) -> Option<Signature>;
    fn lawful(&self, kind: u8, params: &[Value]) -> bool;
    fn first(&self, kind: u8, params: &[Value]) -> State;
    fn out(&self, kind: u8, params: &[Value], state: State, inputs: &[Value]) -> Value;
    fn next(&self, kind: u8, params: &[Value], state: State, inputs: &[Value]) -> State;
}

fn binary_at(args: &[Value], i: usize) -> bool {
    matches!(args.get(i), Some(Value::Binary(true)))
}

fn whole_at(args: &[Value], i: usize) -> i16 {
    match args.get(i) {
        Some(Value::Whole(n)) => *n,
        _ => 0,
    }
}

fn real_at(args: &[Value], i: usize) -> f32 {
    match args.get(i) {
        Some(Value::Real(x)) => *x,
        _ => 0.0,
    }
}

#[derive(Clone, Copy)]
enum Kind {
    Delay(Type),
    And,
    Or,
    Xor,
    Not,
    Limit,
    Add,
    Sequence,
    Scale,
    OnDelay,
}

impl Kind {
    fn of(number: u8) -> Option<Kind> {
        Some(match number {
            1 => Kind::Delay(Type::Binary),
            2 => Kind::Delay(Type::Whole),
            3 => Kind::Delay(Type::Real),
            4 => Kind::And,
            5 => Kind::Or,
            6 => Kind::Xor,
            7 => Kind::Not,
            10 => Kind::Limit,
            11 => Kind::Add,
            12 => Kind::Sequence,
            14 => Kind::Scale,
            15 => Kind::OnDelay,
            _ => return None,
        })
    }

    fn signature(self) -> Signature {
        use Type::{Binary, Real, Whole};
        let (inputs, params, output, delaying): (&[Type], &[Type], Type, bool) = match self {
            Kind::Delay(Binary) => (&[Binary], &[Binary], Binary, true),
            Kind::Delay(Whole) => (&[Whole], &[Whole], Whole, true),
            Kind::Delay(Real) => (&[Real], &[Real], Real, true),
            Kind::And | Kind::Or | Kind::Xor => (&[Binary, Binary], &[], Binary, false),
            Kind::Not => (&[Binary], &[], Binary, false),
            Kind::Limit => (&[Real], &[Real, Real], Real, false),
            Kind::Add => (&[Whole, Whole], &[], Whole, false),
            Kind::Sequence => (&[Real], &[Whole], Whole, false),
            Kind::Scale => (&[Real], &[Real, Real, Real, Real], Real, false),
            Kind::OnDelay => (&[Binary], &[Whole], Binary, false),
        };
        Signature { inputs, params, output, delaying }
    }

    fn lawful(self, params: &[Value]) -> bool {
        match self {
            Kind::Limit => real_at(params, 0) <= real_at(params, 1),
            Kind::Sequence => (1..=16).contains(&whole_at(params, 0)),
            Kind::Scale => {
                let (a, b) = (real_at(params, 0), real_at(params, 1));
                a < b || a > b
            }
            Kind::OnDelay => whole_at(params, 0) >= 1,
            _ => true,
        }
    }
}

fn timer(params: &[Value], state: State, inputs: &[Value]) -> u16 {
    match (state.value.binary(), binary_at(inputs, 0)) {
        (false, true) => whole_at(params, 0).max(0) as u16,
        (true, true) => state.count.saturating_sub(1),
        (_, false) => 0,
    }
}

fn stages(m: i16, x: f32) -> i16 {
    let y = if x > 100.0 {
        100.0
    } else if x > 0.0 {
        x
    } else {
        0.0
    };
    let on = ((f32::from(m) + 1.0) * y / 100.0) as u32;
    ((1u32 << on.min(16)) - 1) as u16 as i16
}

pub struct Plant;

impl Library for Plant {
    fn signature(&self, kind: u8) -> Option<Signature> {
        Kind::of(kind).map(Kind::signature)
    }

    fn lawful(&self, kind: u8, params: &[Value]) -> bool {
        Kind::of(kind).is_some_and(|k| k.lawful(params))
    }

    fn first(&self, kind: u8, params: &[Value]) -> State {
        match Kind::of(kind) {
            Some(Kind::Delay(t)) => State {
                value: params.first().map_or(t.zero(), |v| v.coerced(t)),
                count: 0,
            },
            _ => IDLE,
        }
    }

    fn out(&self, kind: u8, params: &[Value], state: State, inputs: &[Value]) -> Value {
        let Some(kind) = Kind::of(kind) else {
            return Value::Binary(false);
        };
        if !kind.lawful(params) {
            return kind.signature().output.zero();
        }
        match kind {
            Kind::Delay(t) => state.value.coerced(t),
            Kind::And => Value::Binary(binary_at(inputs, 0) && binary_at(inputs, 1)),
            Kind::Or => Value::Binary(binary_at(inputs, 0) || binary_at(inputs, 1)),
            Kind::Xor => Value::Binary(binary_at(inputs, 0) != binary_at(inputs, 1)),
            Kind::Not => Value::Binary(!binary_at(inputs, 0)),
            Kind::Limit => {
                let (low, high, x) = (real_at(params, 0), real_at(params, 1), real_at(inputs, 0));
                Value::Real(if x < low {
                    low
                } else if x > high {
                    high
                } else {
                    x
                })
            }
            Kind::Add => Value::Whole(whole_at(inputs, 0).saturating_add(whole_at(inputs, 1))),
            Kind::Sequence => Value::Whole(stages(whole_at(params, 0), real_at(inputs, 0))),
            Kind::Scale => {
                let (a, b) = (real_at(params, 0), real_at(params, 1));
                let (c, d) = (real_at(params, 2), real_at(params, 3));
                Value::Real((real_at(inputs, 0) - a) * ((d - c) / (b - a)) + c)
            }
            Kind::OnDelay => Value::Binary(binary_at(inputs, 0) && timer(params, state, inputs) == 0),
        }
    }

    fn next(&self, kind: u8, params: &[Value], state: State, inputs: &[Value]) -> State {
        match Kind::of(kind) {
            Some(Kind::Delay(t)) => State {
                value: inputs.first().map_or(t.zero(), |v| v.coerced(t)),
                count: 0,
            },
            Some(kind @ Kind::OnDelay) if kind.lawful(params) => State {
                value: Value::Binary(binary_at(inputs, 0)),
                count: timer(params, state, inputs),
            },
            _ => IDLE,
        }
    }
}

pub struct Drawing {
    pub draft: Draft,
    pub signatures: Vec<Signature>,
    pub order: Vec<usize>,
}

/// Checks a draft in three rounds.
pub fn check(library: &impl Library, draft: Draft) -> Result<Drawing, Fault> {
    let mut signatures = Vec::with_capacity(draft.blocks.len());
    for (b, block) in draft.blocks.iter().enumerate() {
        let signature = library.signature(block.kind).ok_or(Fault(11, b, 0))?;
        if block.sources.len() != signature.inputs.len() {
            return Err(Fault(12, b, 0));
        }
        if block.params.len() != signature.params.len() {
            return Err(Fault(13, b, 0));
        }
        if let Some(p) = block.params.iter().zip(signature.params).position(|(v, t)| v.type_of() != *t) {
            return Err(Fault(13, b, p));
        }
        if !library.lawful(block.kind, &block.params) {
            return Err(Fault(14, b, 0));
        }
        signatures.push(signature);
    }
    for (b, (block, signature)) in draft.blocks.iter().zip(&signatures).enumerate() {
        for (i, (source, wanted)) in block.sources.iter().zip(signature.inputs).enumerate() {
            let given = match *source {
                Source::Column(c) => draft.columns.get(usize::from(c)).copied(),
                Source::Block(b) => signatures.get(usize::from(b)).map(|s| s.output),
            };
            match given {
                None => return Err(Fault(15, b, i)),
                Some(t) if t != *wanted => return Err(Fault(16, b, i)),
                Some(_) => (),
            }
        }
    }
    let order = arrange(&draft.blocks, &signatures)?;
    Ok(Drawing { draft, signatures, order })
}

/// Again and again the lowest block that its sources allow, until all are placed.
fn arrange(blocks: &[Block], signatures: &[Signature]) -> Result<Vec<usize>, Fault> {
    let mut placed = vec![false; blocks.len()];
    let mut order = Vec::with_capacity(blocks.len());
    while let Some(lowest) = placed.iter().position(|p| !p) {
        let fed = |s: &Source| match *s {
            Source::Block(u) => placed[usize::from(u)],
            Source::Column(_) => true,
        };
        let ready = |v: &usize| !placed[*v] && (signatures[*v].delaying || blocks[*v].sources.iter().all(fed));
        let next = (lowest..blocks.len()).find(ready).ok_or(Fault(17, lowest, 0))?;
        placed[next] = true;
        order.push(next);
    }
    Ok(order)
}

/// Readings, and the writes that stand over them by cycle.
pub struct Sheet {
    columns: Vec<Type>,
    rows: u32,
    cells: Vec<Value>,
    /// The cycles of the standing writes, the oldest first.
    made: Vec<u32>,
    /// By cycle its writes, the oldest first.
    over: Vec<Vec<(u32, Value)>>,
}

impl Sheet {
    pub fn new(columns: Vec<Type>, rows: u32, cells: Vec<Value>) -> Result<Sheet, Fault> {
        let width = columns.len();
        if !(1..=4096).contains(&rows) || width > 8 || cells.len() != rows as usize * width {
            return Err(Fault(32, 0, 0));
        }
        for (i, cell) in cells.iter().enumerate() {
            if cell.type_of() != columns[i % width] {
                return Err(Fault(23, i / width, i % width));
            }
            if !cell.is_finite() {
                return Err(Fault(24, i / width, i % width));
            }
        }
        let over = vec![Vec::new(); rows as usize];
        Ok(Sheet { columns, rows, cells, made: Vec::new(), over })
    }

    pub fn rows(&self) -> u32 {
        self.rows
    }

    pub fn columns(&self) -> &[Type] {
        &self.columns
    }

    /// The standing row of a cycle; `memory` holds it where a write stands over it.
    fn row<'a>(&'a self, cycle: u32, memory: &'a mut [Value; 8]) -> &'a [Value] {
        let width = self.columns.len();
        let first = &self.cells[cycle as usize * width..][..width];
        let writes = &self.over[cycle as usize];
        if writes.is_empty() {
            return first;
        }
        memory[..width].copy_from_slice(first);
        for (column, value) in writes {
            memory[*column as usize] = *value;
        }
        &memory[..width]
    }

    fn append(&mut self, cycle: u32, column: u32, value: Value) -> Result<(), Fault> {
        let refused = |number| Err(Fault(number, cycle as usize, column as usize));
        if cycle >= self.rows {
            return refused(21);
        }
        let Some(wanted) = self.columns.get(column as usize) else {
            return refused(22);
        };
        if value.type_of() != *wanted {
            return refused(23);
        }
        if !value.is_finite() {
            return refused(24);
        }
        if self.made.len() >= 1024 {
            return refused(25);
        }
        self.made.push(cycle);
        self.over[cycle as usize].push((column, value));
        Ok(())
    }

    fn strike_latest(&mut self) -> Result<u32, Fault> {
        let cycle = self.made.pop().ok_or(Fault(26, 0, 0))?;
        self.over[cycle as usize].pop();
        Ok(cycle)
    }
}

/// The states of every block, in the places of 64.
type Row = [State; BLOCKS];

/// Rows of states, kept for some cycles.
pub trait Store {
    fn takes(&self, cycle: u32) -> bool;
    fn put(&mut self, cycle: u32, row: &Row);
    /// The highest held cycle at or below a given one, with its row.
    fn find(&self, cycle: u32) -> Option<(u32, &Row)>;
    fn cut(&mut self, cycle: u32);
    fn empty(&mut self);
}

/// Room for some rows, which only a cut or emptying loses.
pub struct Table {
    rows: BTreeMap<u32, Box<Row>>,
    room: usize,
}

impl Table {
    pub fn new(room: usize) -> Table {
        Table { rows: BTreeMap::new(), room }
    }
}

impl Store for Table {
    fn takes(&self, cycle: u32) -> bool {
        self.rows.len() < self.room || self.rows.contains_key(&cycle)
    }

    fn put(&mut self, cycle: u32, row: &Row) {
        self.rows.insert(cycle, Box::new(*row));
    }

    fn find(&self, cycle: u32) -> Option<(u32, &Row)> {
        self.rows.range(..=cycle).next_back().map(|(c, row)| (*c, &**row))
    }

    fn cut(&mut self, cycle: u32) {
        self.rows.split_off(&(cycle + 1));
    }

    fn empty(&mut self) {
        self.rows.clear();
    }
}

/// What the sources of a block give, and how many they are.
fn gather(sources: &[Source], row: &[Value], shown: &[Value; BLOCKS]) -> ([Value; 4], usize) {
    let mut inputs = [Value::Binary(false); 4];
    for (input, source) in inputs.iter_mut().zip(sources) {
        *input = match *source {
            Source::Column(c) => row[usize::from(c)],
            Source::Block(b) => shown[usize::from(b)],
        };
    }
    (inputs, sources.len())
}

pub struct Player<L, S> {
    library: L,
    store: S,
    drawing: Drawing,
    rows: u32,
    at: u32,
    states: Row,
    shown: [Value; BLOCKS],
}

impl<L: Library, S: Store> Player<L, S> {
    pub fn open(library: L, mut store: S, drawing: Drawing, sheet: &Sheet) -> Result<Self, Fault> {
        if drawing.draft.columns != sheet.columns {
            return Err(Fault(31, 0, 0));
        }
        for (block, signature) in drawing.draft.blocks.iter().zip(&drawing.signatures) {
            if library.signature(block.kind) != Some(*signature) || !library.lawful(block.kind, &block.params) {
                return Err(Fault(36, 0, 0));
            }
        }
        store.empty();
        let mut player = Player {
            library,
            store,
            drawing,
            rows: sheet.rows,
            at: 0,
            states: [IDLE; BLOCKS],
            shown: [Value::Binary(false); BLOCKS],
        };
        player.begin();
        player.work(sheet.row(0, &mut [Value::Binary(false); 8]));
        Ok(player)
    }

    /// First states.
    fn begin(&mut self) {
        for (state, block) in self.states.iter_mut().zip(&self.drawing.draft.blocks) {
            *state = self.library.first(block.kind, &block.params);
        }
    }

    /// Solves a cycle with the states there are.
    fn work(&mut self, row: &[Value]) {
        for &b in &self.drawing.order {
            let block = &self.drawing.draft.blocks[b];
            let (inputs, count) = gather(&block.sources, row, &self.shown);
            self.shown[b] = self.library.out(block.kind, &block.params, self.states[b], &inputs[..count]);
        }
    }

    /// Passes the next states on, after a cycle is solved.
    fn pass(&mut self, row: &[Value]) {
        for (state, block) in self.states.iter_mut().zip(&self.drawing.draft.blocks) {
            let (inputs, count) = gather(&block.sources, row, &self.shown);
            *state = self.library.next(block.kind, &block.params, *state, &inputs[..count]);
        }
    }

    /// Works from a cycle, whose states are there, up to another, and shows it.
    fn play(&mut self, sheet: &Sheet, start: u32, end: u32) -> u32 {
        let mut memory = [Value::Binary(false); 8];
        for cycle in start..end {
            let row = sheet.row(cycle, &mut memory);
            self.work(row);
            self.pass(row);
            let reached = cycle + 1;
            if reached % 32 == 0 && self.store.takes(reached) {
                self.store.put(reached, &self.states);
            }
        }
        self.at = end;
        self.work(sheet.row(end, &mut memory));
        end - start
    }

    /// Moves to a cycle, from the states at the playhead where they may be used.
    fn go(&mut self, sheet: &Sheet, end: u32, current: bool) -> u32 {
        let start = match self.store.find(end) {
            Some((cycle, row)) if !current || self.at < cycle => {
                self.states = *row;
                cycle
            }
            _ if current => self.at,
            _ => {
                self.begin();
                0
            }
        };
        self.play(sheet, start, end)
    }

    fn serves(&self, sheet: &Sheet) -> bool {
        self.rows == sheet.rows && self.drawing.draft.columns == sheet.columns
    }

    pub fn jump(&mut self, sheet: &Sheet, cycle: u32) -> Result<u32, Fault> {
        if !self.serves(sheet) {
            return Err(Fault(31, 0, 0));
        }
        if cycle >= sheet.rows {
            return Err(Fault(21, cycle as usize, 0));
        }
        Ok(self.go(sheet, cycle, self.at <= cycle))
    }

    pub fn step(&mut self, sheet: &Sheet) -> Result<u32, Fault> {
        self.jump(sheet, self.at + 1)
    }

    /// Brings the player up to date after a change whose lowest cycle is `k`.
    fn renew(&mut self, sheet: &Sheet, k: u32) -> u32 {
        self.store.cut(k);
        if k < self.at {
            return self.go(sheet, self.at, false);
        }
        if k == self.at {
            self.work(sheet.row(k, &mut [Value::Binary(false); 8]));
        }
        0
    }

    pub fn write(&mut self, sheet: &mut Sheet, cycle: u32, column: u32, value: Value) -> Result<u32, Fault> {
        if !self.serves(sheet) {
            return Err(Fault(31, 0, 0));
        }
        sheet.append(cycle, column, value)?;
        Ok(self.renew(sheet, cycle))
    }

    pub fn take_back(&mut self, sheet: &mut Sheet) -> Result<u32, Fault> {
        if !self.serves(sheet) {
            return Err(Fault(31, 0, 0));
        }
        let cycle = sheet.strike_latest()?;
        Ok(self.renew(sheet, cycle))
    }

    pub fn show(&self, block: u32) -> Result<Value, Fault> {
        if block as usize >= self.drawing.draft.blocks.len() {
            return Err(Fault(33, 0, 0));
        }
        Ok(self.shown[block as usize])
    }
}
