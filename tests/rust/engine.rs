//! The engine: what `roam` answers to its arguments, files and script.

pub mod draft;
pub mod drawing;
pub mod keyframes;
pub mod literal;
pub mod outcome;
pub mod packed;
pub mod plant;
pub mod player;
pub mod script;
pub mod sheet;
pub mod value;
pub mod walker;

use keyframes::Store;
use outcome::{Outcome, Part, Run, Stop};
use player::Player;

/// The first thing that is wrong, or the run of the script. `file` gives the bytes of a path, if it can be read.
pub fn play(arguments: &[&str], file: impl Fn(&str) -> Option<Vec<u8>>, script: Vec<u8>) -> Outcome {
    let (drawing_path, sheet_path, store) = match *arguments {
        [drawing, sheet] => (drawing, sheet, Store::DEFAULT),
        [drawing, sheet, store] => (drawing, sheet, Store::named(store).ok_or(Stop::Usage("no such store"))?),
        _ => return Err(Stop::Usage("wrong number of arguments")),
    };
    let read = |path: &str| file(path).ok_or(Stop::CannotRead(path.to_string(), "no such file"));
    let text =
        |path: &str, bytes| String::from_utf8(bytes).map_err(|_| Stop::CannotRead(path.to_string(), "not UTF-8"));

    let drawing = packed::read(&read(drawing_path)?)
        .and_then(drawing::check)
        .map_err(|fault| Stop::Refused(Part::Drawing, fault))?;

    let sheet = text(sheet_path, read(sheet_path)?)?;
    let memory = sheet::read(&sheet).map_err(|(line, why)| Stop::Text(Part::Sheet, line, why))?;
    memory.test().map_err(|fault| Stop::Refused(Part::Sheet, fault))?;

    let script = text("standard input", script)?;
    let script = script::read(&script, &memory.columns).map_err(|(line, why)| Stop::Text(Part::Script, line, why))?;

    let mut player =
        Player::open(&drawing, &memory, &script.marks, store).map_err(|fault| Stop::Refused(Part::Opening, fault))?;
    let answers = script.calls.into_iter().map(|(words, call)| (words, player.make(&call))).collect();
    let shown = player.walker.values();
    Ok(Run {
        columns: memory.columns.len(),
        rows: memory.rows.len(),
        answers,
        playhead: player.walker.cycle,
        blocks: drawing.blocks.iter().map(|block| block.name.clone()).zip(shown).collect(),
        kinds: drawing.blocks.iter().map(|block| block.kind).collect(),
    })
}
