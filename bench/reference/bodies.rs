//! Cells, bodies, and the sums over all bodies aboard.

use std::fmt;

/// A cell by bay, row and tier.
#[derive(Clone, Copy, PartialEq, Eq, Hash)]
pub struct Cell {
    pub bay: i32,
    pub row: i32,
    pub tier: i32,
}

impl Cell {
    /// The cell that six or seven digits name.
    pub fn read(text: &[u8]) -> Option<Cell> {
        let short = match text.len() {
            6 => 1,
            7 => 0,
            _ => return None,
        };
        if !text.iter().all(u8::is_ascii_digit) {
            return None;
        }
        let number = |from: usize, to: usize| {
            text[from..to].iter().fold(0, |sum, digit| 10 * sum + i32::from(digit - b'0'))
        };
        Some(Cell {
            bay: number(0, 3 - short),
            row: number(3 - short, 5 - short),
            tier: number(5 - short, 7 - short),
        })
    }

    /// The first and the last bay that it stands over: an even bay stands over both its neighbours.
    fn span(self) -> (i32, i32) {
        if self.bay % 2 == 1 {
            (self.bay, self.bay)
        } else {
            (self.bay - 1, self.bay + 1)
        }
    }

    pub fn overlaps(self, other: Cell) -> bool {
        let (after, fore) = self.span();
        let (other_after, other_fore) = other.span();
        self.row == other.row
            && self.tier == other.tier
            && after <= other_fore
            && other_after <= fore
    }
}

impl fmt::Display for Cell {
    fn fmt(&self, out: &mut fmt::Formatter) -> fmt::Result {
        write!(out, "{:03}{:02}{:02}", self.bay, self.row, self.tier)
    }
}

/// Where something stands: the middle of its length, and half of its length, in mm.
#[derive(Clone, Copy)]
pub struct Place {
    pub x: i128,
    pub y: i128,
    pub z: i128,
    pub half: i128,
}

/// Something aboard: its mass in kg, its place, and its free surface moment in kg mm.
#[derive(Clone, Copy)]
pub struct Body {
    pub mass: i128,
    pub place: Place,
    pub free_surface: i128,
}

impl Body {
    /// Its mass aft of a frame in kg, and the moment of that mass about the frame in kg mm.
    fn share(&self, frame: i128) -> (i128, i128) {
        let Place { x, half, .. } = self.place;
        let reach = frame - x + half;
        if frame <= x - half {
            (0, 0)
        } else if frame >= x + half {
            (self.mass, self.mass * (frame - x))
        } else {
            (
                (self.mass * reach).div_euclid(2 * half),
                (self.mass * reach * reach).div_euclid(4 * half),
            )
        }
    }
}

/// What bodies add up to: mass in kg, moments about the after perpendicular, the centre line and
/// the keel in kg mm, free surface moments in kg mm, and for each frame the mass aft of it and that
/// mass's moment about it.
#[derive(Clone)]
pub struct Totals {
    pub mass: i128,
    pub along: i128,
    pub across: i128,
    pub up: i128,
    pub free_surfaces: i128,
    pub aft: Vec<(i128, i128)>,
}

impl Totals {
    pub fn none(frames: &[i128]) -> Totals {
        Totals {
            mass: 0,
            along: 0,
            across: 0,
            up: 0,
            free_surfaces: 0,
            aft: vec![(0, 0); frames.len()],
        }
    }

    /// One body, with the x of the frames.
    pub fn of(body: &Body, frames: &[i128]) -> Totals {
        Totals {
            mass: body.mass,
            along: body.mass * body.place.x,
            across: body.mass * body.place.y,
            up: body.mass * body.place.z,
            free_surfaces: body.free_surface,
            aft: frames.iter().map(|frame| body.share(*frame)).collect(),
        }
    }

    /// Adds other sums, or with the sign -1 takes them off.
    pub fn join(&mut self, other: &Totals, sign: i128) {
        self.mass += sign * other.mass;
        self.along += sign * other.along;
        self.across += sign * other.across;
        self.up += sign * other.up;
        self.free_surfaces += sign * other.free_surfaces;
        for (sum, share) in self.aft.iter_mut().zip(&other.aft) {
            sum.0 += sign * share.0;
            sum.1 += sign * share.1;
        }
    }
}
