//! The plain reference: `loadseq check` and `loadseq first` for inputs that are accepted, straight
//! from the definitions, on exact whole numbers of 128 bits. `bench/README.md` says what it is for.
//!
//! Built by `rustc --edition 2021 -O -o OUT bench/reference/main.rs`.

mod aboard;
mod bodies;
mod document;
mod figures;
mod fraction;
mod interchange;
mod judging;
mod messages;
mod phases;
mod profile;
mod report;
mod table_text;

use std::io::{ErrorKind, Write};
use std::path::Path;
use std::process::ExitCode;

/// Why an input is refused, in a few words.
pub struct Refusal(&'static str);

pub type Answer<T> = Result<T, Refusal>;

pub fn refuse<T>(why: &'static str) -> Answer<T> {
    Err(Refusal(why))
}

impl From<&'static str> for Refusal {
    fn from(why: &'static str) -> Refusal {
        Refusal(why)
    }
}

/// The words of the command line.
struct Words {
    first_alone: bool,
    folder: String,
    plan: String,
    instruction: String,
    steps: Option<String>,
    phases: bool,
}

const USAGE: &str = "usage: reference check|first FOLDER BAPLIE MOVINS \
    [--steps FILE] [--workers N] [--chunk N] [--phases]";

impl Words {
    /// None where the words are no command. Numbers of workers and lengths of chunks change
    /// nothing, and are skipped.
    fn read() -> Option<Words> {
        let mut plain = Vec::new();
        let mut steps = None;
        let mut phases = false;
        let mut words = std::env::args().skip(1);
        while let Some(word) = words.next() {
            match word.as_str() {
                "--phases" => phases = true,
                "--steps" => steps = Some(words.next()?),
                "--workers" | "--chunk" => drop(words.next()?),
                _ => plain.push(word),
            }
        }
        let [command, folder, plan, instruction]: [String; 4] = plain.try_into().ok()?;
        let first_alone = match command.as_str() {
            "check" => false,
            "first" => true,
            _ => return None,
        };
        Some(Words { first_alone, folder, plan, instruction, steps, phases })
    }
}

/// The bytes of all files.
struct Texts {
    profile: profile::Files,
    plan: Vec<u8>,
    instruction: Vec<u8>,
    steps: Option<Vec<u8>>,
}

impl Texts {
    fn read(words: &Words) -> std::io::Result<Texts> {
        let file = |name: &str| std::fs::read(Path::new(&words.folder).join(name));
        Ok(Texts {
            profile: profile::Files {
                ship: file("ship.toml")?,
                cells: file("cells.csv")?,
                hydrostatics: file("hydro.csv")?,
                cross_curves: file("kn.csv")?,
                bonjean: file("bonjean.csv")?,
                tanks: file("tanks.csv")?,
                least_heights: match file("gm.csv") {
                    Err(fault) if fault.kind() == ErrorKind::NotFound => None,
                    text => Some(text?),
                },
            },
            plan: std::fs::read(&words.plan)?,
            instruction: std::fs::read(&words.instruction)?,
            steps: words.steps.as_ref().map(std::fs::read).transpose()?,
        })
    }
}

fn reported(texts: &Texts, phases: &mut phases::Phases) -> Answer<report::Report> {
    let ship = profile::Ship::read(&texts.profile)?;
    phases.end("profile");
    let items = messages::items(&texts.plan)?;
    phases.end("bay plan");
    let lifts = messages::lifts(&texts.instruction)?;
    let steps = match &texts.steps {
        Some(text) => messages::steps(text, &lifts)?,
        None => lifts,
    };
    phases.end("instruction");
    let mut aboard = aboard::Aboard::on_arrival(&ship, items)?;
    let arrival = aboard.bodies();
    let changes = aboard.changes(steps)?;
    phases.end("arrival and legality");
    Ok(report::report(&ship, &arrival, &changes, phases))
}

fn main() -> ExitCode {
    let mut phases = phases::Phases::start();
    let Some(words) = Words::read() else {
        eprintln!("{USAGE}");
        return ExitCode::from(3);
    };
    let Ok(texts) = Texts::read(&words) else {
        eprintln!("read fault");
        return ExitCode::from(5);
    };
    phases.end("reading the files");
    let report = match reported(&texts, &mut phases) {
        Ok(report) => report,
        Err(Refusal(why)) => {
            eprintln!("refused: {why}");
            return ExitCode::from(2);
        }
    };
    let text = if words.first_alone { &report.last_line } else { &report.text };
    if std::io::stdout().write_all(text.as_bytes()).is_err() {
        return ExitCode::from(5);
    }
    phases.end("writing");
    if words.phases {
        phases.print();
    }
    ExitCode::from(u8::from(!report.passes))
}
