//! Random cases: all that `roam` is given.

mod drafts;
mod files;
pub mod noise;
mod random;
mod scripts;
mod sheets;
mod values;

use files::File;
use random::Random;
use scripts::Scribe;

/// The arguments name the files `drawing` and `sheet`, and now and then one that is not there.
pub struct Case {
    pub arguments: Vec<String>,
    pub drawing: Vec<u8>,
    pub sheet: Vec<u8>,
    pub script: Vec<u8>,
}

/// What is wrong with a case.
#[derive(Clone, Copy, PartialEq, Eq)]
enum Trouble {
    Arguments,
    Draft,
    File,
    Sheet,
    Columns,
    Script,
}

impl Case {
    pub fn file(&self, path: &str) -> Option<Vec<u8>> {
        match path {
            "drawing" => Some(self.drawing.clone()),
            "sheet" => Some(self.sheet.clone()),
            _ => None,
        }
    }
}

pub fn case(seed: u64, number: u64) -> Case {
    let random = &mut Random::new(seed, number);
    let troubles = troubles(random);
    let has = |trouble| troubles.contains(&trouble);

    let mut draft = drafts::draft(random);
    let columns =
        if has(Trouble::Columns) { sheets::other_columns(random, &draft.columns) } else { draft.columns.clone() };
    if has(Trouble::Draft) {
        (0..random.pick(&[1, 1, 1, 2, 3])).for_each(|_| drafts::spoil(random, &mut draft));
    }
    let mut drawing = File::of(&draft);
    if has(Trouble::File) {
        drawing.damage(random);
    }

    let rows = match random.below(50) {
        0 => random.pick(&[1000, 2000, 4095, 4096]),
        1 => random.between(301, 4096),
        2 | 3 => 1,
        4..=12 => random.between(2, 40),
        _ => random.between(40, 300),
    };
    let mut sheet = sheets::sheet(random, &columns, rows);
    if has(Trouble::Sheet) {
        sheet.spoil(random, &columns);
    }
    let mut sheet = sheet.text(random);
    if has(Trouble::Sheet) && random.chance(5) {
        no_longer_text(random, &mut sheet);
    }

    let scribe = Scribe::new(random, &columns, rows, draft.blocks.len());
    let mut script = if has(Trouble::Script) { scribe.write_spoilt() } else { scribe.write() };
    if has(Trouble::Script) && random.chance(5) {
        no_longer_text(random, &mut script);
    }
    let arguments = arguments(random, has(Trouble::Arguments));
    Case { arguments, drawing: drawing.bytes, sheet, script }
}

/// One case in ten has something wrong with it, and some of these more than one thing: the first must be told.
fn troubles(random: &mut Random) -> Vec<Trouble> {
    if !random.chance(10) {
        return Vec::new();
    }
    let all = [Trouble::Arguments, Trouble::Draft, Trouble::File, Trouble::Sheet, Trouble::Columns, Trouble::Script];
    (0..random.pick(&[1, 1, 1, 2])).map(|_| all[random.weighted(&[1, 6, 5, 4, 1, 3])]).collect()
}

/// Puts in a byte that UTF-8 never has.
fn no_longer_text(random: &mut Random, text: &mut [u8]) {
    let place = random.below(text.len());
    text[place] = 0xFF;
}

fn arguments(random: &mut Random, bad: bool) -> Vec<String> {
    let mut arguments = vec!["drawing".to_string(), "sheet".to_string()];
    match random.below(8) {
        0 => {}
        1 | 2 => arguments.push("none".to_string()),
        3 | 4 => arguments.push("one".to_string()),
        _ => {
            let any = random.below(130);
            let places = random.pick(&[0, 1, 2, 3, 5, 8, 127, 128, 4096, any]);
            arguments.push(format!("table:{places}"));
        }
    }
    if bad {
        match random.below(6) {
            0 => arguments[0] = "nothing".to_string(),
            1 => arguments[1] = "nothing".to_string(),
            2 => arguments.truncate(random.below(2)),
            3 => arguments.resize(random.between(4, 5), "none".to_string()),
            _ => {
                arguments.truncate(2);
                arguments.push(random.word("table:4097 table:-1 table: table:x table:1.0 table Table:3 None two 8"));
            }
        }
    }
    arguments
}
