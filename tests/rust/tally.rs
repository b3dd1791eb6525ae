//! What the cases covered.

use crate::engine::keyframes::Start;
use crate::engine::outcome::{Answer, Fault, Outcome, Part, Run, Stop};
use crate::engine::value::Value;
use std::collections::BTreeMap;
use std::fmt;

/// Counts by heading and by what was counted.
#[derive(Default)]
pub struct Tally(BTreeMap<&'static str, BTreeMap<String, u64>>);

impl Tally {
    pub fn count(&mut self, heading: &'static str, what: impl Into<String>) {
        *self.0.entry(heading).or_default().entry(what.into()).or_default() += 1;
    }

    pub fn note(&mut self, arguments: &[String], outcome: &Outcome) {
        match outcome {
            Ok(run) => self.note_run(arguments, run),
            Err(Stop::Usage(why)) => self.count("text errors", format!("usage, {why}")),
            Err(Stop::CannotRead(path, why)) => self.count("text errors", format!("cannot read {path}, {why}")),
            Err(Stop::Text(part, _, why)) => self.count("text errors", format!("{part}, {why}")),
            Err(Stop::Refused(part, fault)) => self.refusal(*part, fault),
        }
        self.count("outcomes", if outcome.is_ok() { "opened" } else { "stopped" });
    }

    fn refusal(&mut self, part: Part, fault: &Fault) {
        let heading = match part {
            Part::Drawing => "refused drawings",
            Part::Sheet => "refused sheets",
            Part::Script | Part::Opening => "refused openings",
        };
        self.count(heading, format!("{:02}", fault.number));
    }

    fn note_run(&mut self, arguments: &[String], run: &Run) {
        let store = match arguments.get(2).map(String::as_str) {
            None => "left out",
            Some(store @ ("none" | "one" | "table:0")) => store,
            Some("table:1" | "table:2" | "table:3") => "table:1 to 3",
            Some(_) => "larger table",
        };
        self.count("stores", store);
        for kind in &run.kinds {
            self.count("blocks", format!("{kind:?}").to_uppercase());
        }
        self.count("columns", run.columns.to_string());
        let rows = match run.rows {
            1 => "1",
            2..=300 => "2 to 300",
            301..=1000 => "301 to 1000",
            _ => "over 1000",
        };
        self.count("rows", rows);
        for (_, value) in &run.blocks {
            self.value(*value);
        }
        for (words, answer) in &run.answers {
            let call = words.split(' ').next().unwrap_or_default();
            let answer = match answer {
                Answer::Worked(worked) if worked.cycles == 0 => "worked 0",
                Answer::Worked(worked) => match worked.start {
                    Start::First => "worked from 0",
                    Start::Playhead => "worked from playhead",
                    Start::Row => "worked from row",
                },
                Answer::Slip(_) => "slip",
                Answer::Shown(value) => {
                    self.value(*value);
                    "shown"
                }
                Answer::Count(_) => "count",
                Answer::Refused(fault) => {
                    self.count("refused calls", format!("{:02} {call}", fault.number));
                    "refused"
                }
                Answer::NoSlip => "no slip in hand",
            };
            self.count("answers", format!("{call} {answer}"));
        }
    }

    fn value(&mut self, value: Value) {
        let class = match value {
            Value::Binary(false) => "off",
            Value::Binary(true) => "on",
            Value::Whole(i16::MIN | i16::MAX) => "whole at an end",
            Value::Whole(_) => "whole",
            Value::Real(real) if real.is_nan() => "real nan",
            Value::Real(real) if real.is_infinite() => "real infinite",
            Value::Real(real) if real.is_subnormal() => "real subnormal",
            Value::Real(real) if real == 0.0 && real.is_sign_negative() => "real -0",
            Value::Real(0.0) => "real +0",
            Value::Real(_) => "real normal",
        };
        self.count("values", class);
    }
}

impl fmt::Display for Tally {
    fn fmt(&self, f: &mut fmt::Formatter) -> fmt::Result {
        for (heading, counts) in &self.0 {
            let counts: Vec<String> = counts.iter().map(|(what, count)| format!("{what} × {count}")).collect();
            writeln!(f, "{heading}: {}", counts.join(", "))?;
        }
        Ok(())
    }
}
