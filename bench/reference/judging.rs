//! The verdict on a condition, with its figures rounded down.

use crate::bodies::Totals;
use crate::figures::{Floating, Levers, Loads};
use crate::fraction::Fraction;
use crate::profile::Ship;

/// What the report prints of a condition within the ship's tables, in the order of its columns.
pub struct Figures {
    pub metacentric_height: i128,
    pub mean: i128,
    pub aft: i128,
    pub forward: i128,
    pub trim: i128,
    pub list: Option<i128>,
    pub areas: [i128; 3],
    pub lever: i128,
    pub angle: usize,
    pub loads: Loads,
    /// The first criterion that doesn't hold.
    pub failed: Option<&'static str>,
}

pub enum Judgement {
    /// Outside of the ship's tables, with the cause.
    Outside(&'static str),
    Within(Figures),
}

impl Judgement {
    /// The first criterion that doesn't hold.
    pub fn failed(&self) -> Option<&'static str> {
        match self {
            Judgement::Outside(_) => Some("C0"),
            Judgement::Within(figures) => figures.failed,
        }
    }
}

/// The fractions that are judged.
struct Exact {
    floating: Floating,
    aft: Fraction,
    forward: Fraction,
    areas: [Fraction; 3],
    lever: Fraction,
    angle: usize,
    loads: Loads,
    least_height: Option<Fraction>,
}

pub fn judge(ship: &Ship, totals: &Totals) -> Judgement {
    match exact(ship, totals) {
        Ok(exact) => Judgement::Within(rounded(ship, exact)),
        Err(cause) => Judgement::Outside(cause),
    }
}

/// The figures of a condition, or the first cause why it has none.
fn exact(ship: &Ship, totals: &Totals) -> Result<Exact, &'static str> {
    let hydrostatics = ship.hydrostatics.at(totals.mass).ok_or("HYDRO")?;
    let cross_curves = ship.cross_curves.at(totals.mass).ok_or("LEVERS")?;
    let floating = Floating::new(totals, &hydrostatics);
    let loads = Loads::new(ship, totals, &floating).ok_or("BONJEAN")?;
    if loads.closing.abs() > ship.closing_max {
        return Err("CLOSING");
    }
    let least_height = match &ship.least_heights {
        Some(table) => Some(table.at(totals.mass).ok_or("GMLIMIT")?.value(1)),
        None => None,
    };
    let levers = Levers::new(totals, &cross_curves);
    Ok(Exact {
        aft: floating.draught(0, ship.length),
        forward: floating.draught(ship.length, ship.length),
        areas: [levers.area(0, 6), levers.area(0, 8), levers.area(6, 8)],
        lever: levers.greatest(6).0,
        angle: levers.greatest(0).1,
        floating,
        loads,
        least_height,
    })
}

/// Whether an area is at least a limit in thousandths of a mm degree.
fn area_holds(area: Fraction, thousandths: i128) -> bool {
    1000 * area.num >= thousandths * area.den
}

/// The first criterion that doesn't hold, decided on the fractions.
fn failed(ship: &Ship, exact: &Exact) -> Option<&'static str> {
    let height = exact.floating.metacentric_height;
    let is_high_enough = |least: Fraction| height.num * least.den >= least.num * height.den;
    let loads = || exact.loads.frames.iter().zip(&ship.limits);
    let criteria = [
        ("C1", height.at_least(150)),
        ("C2", area_holds(exact.areas[0], 3_151_268)),
        ("C3", area_holds(exact.areas[1], 5_156_621)),
        ("C4", area_holds(exact.areas[2], 1_718_874)),
        ("C5", exact.lever.at_least(200)),
        ("C6", exact.angle >= 25),
        ("C7", exact.floating.list.is_some_and(|list| list.within(ship.list_max))),
        (
            "C8",
            exact.aft.at_most(ship.draught_max)
                && exact.forward.at_most(ship.draught_max)
                && exact.floating.trim.within(ship.trim_max),
        ),
        ("C9", loads().all(|((shear, _), limits)| shear.abs() <= limits.shear)),
        (
            "C10",
            loads().all(|((_, bending), limits)| {
                *bending <= limits.hogging && *bending >= -limits.sagging
            }),
        ),
        ("C11", exact.least_height.is_none_or(is_high_enough)),
    ];
    criteria.iter().find(|(_, holds)| !holds).map(|(code, _)| *code)
}

fn rounded(ship: &Ship, exact: Exact) -> Figures {
    Figures {
        metacentric_height: exact.floating.metacentric_height.floor(),
        mean: exact.floating.mean.floor(),
        aft: exact.aft.floor(),
        forward: exact.forward.floor(),
        trim: exact.floating.trim.floor(),
        list: exact.floating.list.map(Fraction::floor),
        areas: exact.areas.map(Fraction::floor),
        lever: exact.lever.floor(),
        angle: exact.angle,
        failed: failed(ship, &exact),
        loads: exact.loads,
    }
}
