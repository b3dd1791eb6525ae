//! Runs the built `roam` on cases and judges what it prints.

use crate::cases::{self, Case};
use crate::engine::{self, outcome};
use crate::tally::Tally;
use std::fs::{self, File};
use std::io::{self, Read};
use std::os::unix::process::ExitStatusExt;
use std::path::{Path, PathBuf};
use std::process::{Command, ExitStatus, Stdio};
use std::sync::mpsc;
use std::time::Duration;
use std::{env, process, thread};

const TIME_OUT: Duration = Duration::from_secs(10);

/// How every answer begins.
const ANSWERS: [&str; 9] = [
    "opened: ",
    "drawing refused ",
    "sheet refused ",
    "open refused ",
    "sheet line ",
    "script line ",
    "usage: ",
    "cannot read ",
    "out of memory",
];

/// Whether `roam` prints on each case what the engine predicts, bit by bit.
pub fn compare(play: &str, seed: u64, count: u64) -> io::Result<bool> {
    let mut tally = Tally::default();
    let bench = Bench::new(play)?;
    for number in 0..count {
        let case = cases::case(seed, number);
        let arguments: Vec<&str> = case.arguments.iter().map(String::as_str).collect();
        let expected = engine::play(&arguments, |path| case.file(path), case.script.clone());
        tally.note(&case.arguments, &expected);
        let printed = bench.run(&case)?;
        let agrees = printed.status.is_some_and(|status| status.code() == Some(outcome::status(&expected).into()))
            && printed.errors == 0
            && outcome::is_told_by(&expected, &printed.output);
        if !agrees {
            let folder = bench.keep(&case, &printed)?;
            fs::write(folder.join("expected"), outcome::text(&expected))?;
            println!("mismatch in script {number} of seed {seed}; {}", printed.how_it_ended());
            tell_first_difference(&outcome::text(&expected), &printed.output);
            println!("kept in {}", folder.display());
            return Ok(false);
        }
    }
    print!("{tally}");
    println!("{count} scripts: no mismatch");
    Ok(true)
}

fn tell_first_difference(expected: &str, printed: &[u8]) {
    let printed = String::from_utf8_lossy(printed);
    let (mut expected, mut printed) = (expected.lines(), printed.lines());
    for line in 1.. {
        match (expected.next(), printed.next()) {
            (None, None) => break,
            (wanted, found) if wanted == found => {}
            (wanted, found) => {
                println!("line {line}");
                println!("  expected: {}", wanted.unwrap_or("(no line)"));
                println!("  printed:  {}", found.unwrap_or("(no line)"));
                break;
            }
        }
    }
}

/// Whether `roam` answers every noise, and ends.
pub fn noise(play: &str, seed: u64, count: u64) -> io::Result<bool> {
    let mut tally = Tally::default();
    let bench = Bench::new(play)?;
    for number in 0..count {
        let case = cases::noise::case(seed, number);
        let printed = bench.run(&case)?;
        let answer = ANSWERS.into_iter().find(|answer| printed.output.starts_with(answer.as_bytes()));
        let ended = printed.status.is_some_and(|status| matches!(status.code(), Some(0 | 1))) && printed.errors == 0;
        let Some(answer) = answer.filter(|_| ended) else {
            let folder = bench.keep(&case, &printed)?;
            println!("no answer to input {number} of seed {seed}; {}", printed.how_it_ended());
            println!("kept in {}", folder.display());
            return Ok(false);
        };
        tally.count(["noisy drawings", "noisy sheets", "noisy scripts"][number as usize % 3], answer.trim_end());
    }
    print!("{tally}");
    println!("{count} inputs: always an answer");
    Ok(true)
}

/// What a run of `roam` left.
struct Printed {
    output: Vec<u8>,
    /// The number of bytes on standard error, where nothing belongs.
    errors: u64,
    /// None when it did not end in time.
    status: Option<ExitStatus>,
}

impl Printed {
    fn how_it_ended(&self) -> String {
        match self.status {
            None => format!("no end within {TIME_OUT:?}"),
            Some(status) => match status.signal() {
                Some(signal) => format!("ended by signal {signal}"),
                None => format!("{status}, {} bytes on standard error", self.errors),
            },
        }
    }
}

/// A folder in which `roam` is run, removed at the end.
struct Bench {
    play: PathBuf,
    folder: PathBuf,
}

impl Bench {
    fn new(play: &str) -> io::Result<Bench> {
        let play = fs::canonicalize(play)?;
        let folder = env::temp_dir().join(format!("scripts-{}", process::id()));
        fs::create_dir_all(&folder)?;
        Ok(Bench { play, folder })
    }

    fn run(&self, case: &Case) -> io::Result<Printed> {
        write(&self.folder, case)?;
        let errors = self.folder.join("errors");
        let mut child = Command::new(&self.play)
            .args(&case.arguments)
            .current_dir(&self.folder)
            .stdin(File::open(self.folder.join("script"))?)
            .stdout(Stdio::piped())
            .stderr(File::create(&errors)?)
            .spawn()?;
        let mut output = child.stdout.take().expect("standard output is piped");
        let (sender, receiver) = mpsc::channel();
        thread::spawn(move || {
            let mut bytes = Vec::new();
            let read = output.read_to_end(&mut bytes).map(|_| bytes);
            // Nobody listens any more after the time-out.
            let _ = sender.send(read);
        });
        match receiver.recv_timeout(TIME_OUT) {
            Ok(output) => {
                let status = child.wait()?;
                Ok(Printed { output: output?, errors: fs::metadata(&errors)?.len(), status: Some(status) })
            }
            Err(_) => {
                child.kill()?;
                child.wait()?;
                Ok(Printed { output: Vec::new(), errors: 0, status: None })
            }
        }
    }

    /// Keeps a case and what was printed in a folder of its own.
    fn keep(&self, case: &Case, printed: &Printed) -> io::Result<PathBuf> {
        let folder = self.folder.with_extension("kept");
        fs::create_dir_all(&folder)?;
        write(&folder, case)?;
        fs::write(folder.join("args"), case.arguments.iter().map(|word| format!("{word}\n")).collect::<String>())?;
        fs::write(folder.join("printed"), &printed.output)?;
        Ok(folder)
    }
}

fn write(folder: &Path, case: &Case) -> io::Result<()> {
    fs::write(folder.join("drawing"), &case.drawing)?;
    fs::write(folder.join("sheet"), &case.sheet)?;
    fs::write(folder.join("script"), &case.script)
}

impl Drop for Bench {
    fn drop(&mut self) {
        // What cannot be removed stays in the folder for temporary files.
        let _ = fs::remove_dir_all(&self.folder);
    }
}
