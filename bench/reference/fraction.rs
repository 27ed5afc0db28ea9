//! Fractions of whole numbers, and tables that are read on straight lines.

/// A fraction of whole numbers; its denominator is above 0.
#[derive(Clone, Copy)]
pub struct Fraction {
    pub num: i128,
    pub den: i128,
}

impl Fraction {
    /// The greatest whole number that isn't above it.
    pub fn floor(self) -> i128 {
        self.num.div_euclid(self.den)
    }

    pub fn at_least(self, limit: i128) -> bool {
        self.num >= limit * self.den
    }

    pub fn at_most(self, limit: i128) -> bool {
        self.num <= limit * self.den
    }

    /// Whether it is at most a limit, to either side of 0.
    pub fn within(self, limit: i128) -> bool {
        self.num.abs() <= limit * self.den
    }
}

/// Rows of whole numbers, of which the first is the argument; the arguments rise.
pub struct Table {
    pub rows: Vec<Vec<i128>>,
}

/// Two neighbouring rows of a table, and an argument that lies between theirs.
#[derive(Clone, Copy)]
pub struct Between<'a> {
    low: &'a [i128],
    high: &'a [i128],
    at: i128,
}

impl Table {
    /// The rows around an argument, where the table has it.
    pub fn at(&self, argument: i128) -> Option<Between<'_>> {
        if argument < self.rows[0][0] {
            return None;
        }
        // The first row whose argument isn't below this one; the first interval also has its own
        // beginning.
        let above = self.rows.partition_point(|row| row[0] < argument).max(1);
        let high = self.rows.get(above)?;
        Some(Between { low: &self.rows[above - 1], high, at: argument })
    }
}

impl Between<'_> {
    /// The value of a column, on the straight line between both rows. All columns have the same
    /// denominator.
    pub fn value(&self, column: usize) -> Fraction {
        let (x0, y0) = (self.low[0], self.low[column]);
        let (x1, y1) = (self.high[0], self.high[column]);
        Fraction { num: y0 * (x1 - self.at) + y1 * (self.at - x0), den: x1 - x0 }
    }
}
