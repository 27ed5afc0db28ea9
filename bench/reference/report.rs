//! The report, step by step, in blocks whose phases are measured one by one.

use crate::aboard::Change;
use crate::bodies::{Body, Totals};
use crate::judging::{judge, Judgement};
use crate::phases::Phases;
use crate::profile::Ship;
use std::fmt::Write;

const HEADING: &str =
    "STEP LIFT KG GM MEAN AFT FWD TRIM LIST A30 A40 A3040 GZ ANGLE CLOSE FRAMES VERDICT\n";

/// So many steps are added up, then judged, then written; a clock that is read for each step would
/// count too much.
const BLOCK: usize = 256;

/// The report's text, and whether all steps pass.
pub struct Report {
    pub text: String,
    pub last_line: String,
    pub passes: bool,
}

pub fn report(ship: &Ship, arrival: &[Body], changes: &[Change], phases: &mut Phases) -> Report {
    let mut text = String::from(HEADING);
    let mut totals = Totals::none(&ship.frames);
    for body in arrival {
        totals.join(&Totals::of(body, &ship.frames), 1);
    }
    phases.end("totals");
    let mut first: Option<(usize, &str)> = None;
    // Line 0 is the arrival, and line k what is aboard after step k.
    let lines: Vec<usize> = (0..=changes.len()).collect();
    for block in lines.chunks(BLOCK) {
        let all_totals: Vec<Totals> =
            block.iter().map(|step| next(&mut totals, *step, changes, ship)).collect();
        phases.end("totals");
        let judgements: Vec<Judgement> =
            all_totals.iter().map(|totals| judge(ship, totals)).collect();
        phases.end("judging");
        for ((step, totals), judgement) in block.iter().zip(&all_totals).zip(&judgements) {
            let word = if *step == 0 { "-" } else { &changes[step - 1].word };
            write_line(&mut text, *step, word, totals.mass, judgement)
                .expect("a text takes every line");
            first = first.or(judgement.failed().map(|criterion| (*step, criterion)));
        }
        phases.end("lines");
    }
    let last_line = match first {
        None => String::from("ALL PASS\n"),
        Some((step, criterion)) => format!("FIRST FAIL {step} {criterion}\n"),
    };
    text.push_str(&last_line);
    Report { text, last_line, passes: first.is_none() }
}

/// The totals after a step, by those before it.
fn next(totals: &mut Totals, step: usize, changes: &[Change], ship: &Ship) -> Totals {
    if step > 0 {
        let change = &changes[step - 1];
        if let Some(body) = &change.out {
            totals.join(&Totals::of(body, &ship.frames), -1);
        }
        if let Some(body) = &change.put {
            totals.join(&Totals::of(body, &ship.frames), 1);
        }
    }
    totals.clone()
}

fn write_line(
    text: &mut String,
    step: usize,
    word: &str,
    mass: i128,
    judgement: &Judgement,
) -> std::fmt::Result {
    write!(text, "{step} {word} {mass} ")?;
    let figures = match judgement {
        Judgement::Outside(cause) => return writeln!(text, "OUTSIDE {cause}"),
        Judgement::Within(figures) => figures,
    };
    write!(text, "{} {} ", figures.metacentric_height, figures.mean)?;
    write!(text, "{} {} {} ", figures.aft, figures.forward, figures.trim)?;
    match figures.list {
        Some(list) => write!(text, "{list} ")?,
        None => write!(text, "- ")?,
    }
    let [to_30, to_40, from_30_to_40] = figures.areas;
    write!(text, "{to_30} {to_40} {from_30_to_40} ")?;
    write!(text, "{} {} {} ", figures.lever, figures.angle, figures.loads.closing)?;
    for (i, (shear, bending)) in figures.loads.frames.iter().enumerate() {
        let before = if i == 0 { "" } else { ";" };
        write!(text, "{before}{shear}/{bending}")?;
    }
    match figures.failed {
        Some(criterion) => writeln!(text, " FAIL {criterion}"),
        None => writeln!(text, " PASS"),
    }
}
