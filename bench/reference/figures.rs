//! The figures of a condition, as fractions: how the ship floats, her righting levers, and the
//! loads along her.

use crate::bodies::Totals;
use crate::fraction::{Between, Fraction};
use crate::profile::Ship;

/// Sines and cosines of 0, 5, .., 60 degrees in millionths.
const SINES: [i128; 13] = [
    0, 87_156, 173_648, 258_819, 342_020, 422_618, 500_000, 573_576, 642_788, 707_107, 766_044,
    819_152, 866_025,
];
const COSINES: [i128; 13] = [
    1_000_000, 996_195, 984_808, 965_926, 939_693, 906_308, 866_025, 819_152, 766_044, 707_107,
    642_788, 573_576, 500_000,
];

/// How the ship floats: heights and draughts in mm, the list in ten-thousandths of the tangent of
/// its angle.
pub struct Floating {
    pub metacentric_height: Fraction,
    pub mean: Fraction,
    pub trim: Fraction,
    /// There is a list only where the metacentric height is above 0.
    pub list: Option<Fraction>,
    /// The centre of flotation, forward of the after perpendicular.
    flotation: Fraction,
}

impl Floating {
    /// The condition of these totals, with the hydrostatic table read at their mass.
    pub fn new(totals: &Totals, hydrostatics: &Between) -> Floating {
        let metacentre = hydrostatics.value(2);
        let buoyancy = hydrostatics.value(3);
        let to_trim = hydrostatics.value(5);
        // All columns are over the same denominator: the distance of the rows.
        let rows = metacentre.den;
        // KMT - (Mz + FS) / W
        let metacentric_height = Fraction {
            num: metacentre.num * totals.mass - (totals.up + totals.free_surfaces) * rows,
            den: rows * totals.mass,
        };
        // W (LCB - Mx / W) / MCT, where the denominators of LCB and MCT are equal
        let trim =
            Fraction { num: totals.mass * buoyancy.num - totals.along * rows, den: to_trim.num };
        // 10000 (My / W) / GM, where W stands in both denominators
        let list = if metacentric_height.num > 0 {
            Some(Fraction { num: 10_000 * totals.across * rows, den: metacentric_height.num })
        } else {
            None
        };
        Floating {
            metacentric_height,
            mean: hydrostatics.value(1),
            trim,
            list,
            flotation: hydrostatics.value(4),
        }
    }

    /// The draught at a place x, by the line through the draughts at both perpendiculars: mean +
    /// trim (LCF - x) / LBP.
    pub fn draught(&self, x: i128, length: i128) -> Fraction {
        let rows = self.mean.den;
        let arm = self.flotation.num - x * rows;
        Fraction {
            num: self.mean.num * self.trim.den * length + self.trim.num * arm,
            den: rows * self.trim.den * length,
        }
    }
}

/// The righting levers at 0, 5, .., 60 degrees in mm, as numerators over one denominator.
pub struct Levers {
    levers: Vec<i128>,
    den: i128,
}

impl Levers {
    /// KN - KG sin h - |TCG| cos h, with the free surfaces in KG, and the cross curves read at the
    /// mass.
    pub fn new(totals: &Totals, cross_curves: &Between) -> Levers {
        let rows = cross_curves.value(1).den;
        let lever = |h: usize| {
            let weight =
                (totals.up + totals.free_surfaces) * SINES[h] + totals.across.abs() * COSINES[h];
            cross_curves.value(h + 1).num * totals.mass * 1_000_000 - weight * rows
        };
        Levers { levers: (0..13).map(lever).collect(), den: rows * totals.mass * 1_000_000 }
    }

    /// The area under the curve between two angles, numbered from 0, by Simpson's first rule; in mm
    /// degrees.
    pub fn area(&self, from: usize, to: usize) -> Fraction {
        let mut sum = self.levers[from] + self.levers[to];
        for h in from + 1..to {
            sum += if (h - from) % 2 == 1 { 4 } else { 2 } * self.levers[h];
        }
        Fraction { num: 5 * sum, den: 3 * self.den }
    }

    /// The greatest lever from an angle on, and the least angle in degrees that carries it.
    pub fn greatest(&self, from: usize) -> (Fraction, usize) {
        let mut best = from;
        for h in from + 1..13 {
            if self.levers[h] > self.levers[best] {
                best = h;
            }
        }
        (Fraction { num: self.levers[best], den: self.den }, 5 * best)
    }
}

/// Shear force in kg and bending moment in kg mm at each frame, and the closing error in kg.
pub struct Loads {
    pub frames: Vec<(i128, i128)>,
    pub closing: i128,
}

impl Loads {
    /// None where the draught at some station isn't in the Bonjean table.
    pub fn new(ship: &Ship, totals: &Totals, floating: &Floating) -> Option<Loads> {
        let mut areas = Vec::new();
        for (k, station) in ship.stations.iter().enumerate() {
            let draught = floating.draught(*station, ship.length).floor();
            areas.push(ship.bonjean.at(draught)?.value(k + 1).floor());
        }
        let frame = |(x, aft): (&i128, &(i128, i128))| {
            let (buoyancy, moment) = buoyancy_aft(&ship.stations, &areas, *x);
            (aft.0 - buoyancy, aft.1 - moment)
        };
        let frames = ship.frames.iter().zip(&totals.aft).map(frame).collect();
        let (buoyancy, _) = buoyancy_aft(&ship.stations, &areas, *ship.stations.last()?);
        Some(Loads { frames, closing: buoyancy - totals.mass })
    }
}

/// The buoyancy of the intervals that lie wholly aft of a frame, in kg, and its moment about the
/// frame in kg mm.
fn buoyancy_aft(stations: &[i128], areas: &[i128], frame: i128) -> (i128, i128) {
    let mut volume = 0;
    let mut moment = 0;
    for k in 1..stations.len() {
        if stations[k] <= frame {
            let length = stations[k] - stations[k - 1];
            let (after, fore) = (areas[k - 1], areas[k]);
            let (after_arm, fore_arm) = (frame - stations[k - 1], frame - stations[k]);
            volume += length * (after + fore);
            moment +=
                length * (after * (2 * after_arm + fore_arm) + fore * (after_arm + 2 * fore_arm));
        }
    }
    // The sums are twice the volume in cm2 mm, and six times its moment; a volume of 1 cm2 mm
    // weighs 1,025 / 10^7 kg.
    ((1025 * volume).div_euclid(20_000_000), (1025 * moment).div_euclid(60_000_000))
}
