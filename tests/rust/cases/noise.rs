//! Cases with one input that is noise.

use super::files::{self, File};
use super::random::Random;
use super::scripts::Scribe;
use super::{drafts, sheets, Case};

const SHEET_PIECES: [&str; 24] = [
    "binary", "whole", "real", ",", ",", ",", "\n", "\n", "\n", "\r", " ", "0", "1", "9", "-", "+", ".", "e", "on",
    "off", "true", "nan", "inf", "\0",
];

const SCRIPT_PIECES: [&str; 28] = [
    "mark", "step", "jump", "goto", "write", "back", "begin", "confirm", "drop", "show", "tally", " ", " ", " ", " ",
    "\n", "\n", "\n", "\n", "#", "0", "1", "32", "-", "on", "2.5", "a", "\r",
];

pub fn case(seed: u64, number: u64) -> Case {
    let random = &mut Random::new(seed, number);
    let draft = drafts::draft(random);
    let mut drawing = File::of(&draft).bytes;
    let rows = random.between(1, 60);
    let mut sheet = sheets::sheet(random, &draft.columns, rows).text(random);
    let mut script = Scribe::new(random, &draft.columns, rows, draft.blocks.len()).write();
    match number % 3 {
        0 => match random.below(3) {
            0 => drawing = some_bytes(random),
            1 => {
                let header = 3 + draft.columns.len().div_ceil(4);
                drawing.truncate(header);
                drawing.extend(some_bytes(random));
            }
            _ => files::flip(random, &mut drawing),
        },
        1 => make_noise(random, &mut sheet, &SHEET_PIECES),
        _ => make_noise(random, &mut script, &SCRIPT_PIECES),
    }
    Case { arguments: ["drawing", "sheet"].map(str::to_string).to_vec(), drawing, sheet, script }
}

fn some_bytes(random: &mut Random) -> Vec<u8> {
    let most = random.pick(&[10, 100, 2500]);
    let length = random.below(most);
    random.bytes(length)
}

/// Plain noise, noise of pieces that such a text is made of, or the sound text with some edits.
fn make_noise(random: &mut Random, text: &mut Vec<u8>, pieces: &[&str]) {
    match random.below(3) {
        0 => {
            *text = some_bytes(random);
            keep_ascii(random, text);
        }
        1 => {
            let most = random.pick(&[10, 100, 1000]);
            *text = (0..random.below(most)).flat_map(|_| random.pick(pieces).bytes()).collect();
        }
        _ => (0..random.between(1, 6)).for_each(|_| edit(random, text, pieces)),
    }
}

fn edit(random: &mut Random, text: &mut Vec<u8>, pieces: &[&str]) {
    let place = random.below(text.len() + 1);
    let end = text.len().min(place + random.below(12));
    match random.below(4) {
        0 => drop(text.drain(place..end)),
        1 => drop(text.splice(place..place, random.pick(pieces).bytes())),
        2 => text.extend_from_within(place..end),
        _ => {
            let mut bytes = random.bytes(end - place);
            keep_ascii(random, &mut bytes);
            text[place..end].copy_from_slice(&bytes);
        }
    }
}

/// Mostly: bytes above 127 are seldom UTF-8, and then no line is looked at.
fn keep_ascii(random: &mut Random, bytes: &mut [u8]) {
    if random.chance(80) {
        bytes.iter_mut().for_each(|byte| *byte &= 0x7F);
    }
}
