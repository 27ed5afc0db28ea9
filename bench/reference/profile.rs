//! The ship's profile: `ship.toml` and her tables.

use crate::bodies::{Body, Cell, Place};
use crate::document::{self, Entries, Value};
use crate::fraction::Table;
use crate::table_text::{number_within, records, within};
use crate::{refuse, Answer};
use std::collections::HashMap;

const LENGTH: i128 = 1_000_000;
const MASS: i128 = 1_000_000_000;
const MOMENT: i128 = 1_000_000_000_000_000;
const FREE_SURFACE: i128 = 1_000_000_000_000;
const AREA: i128 = 100_000_000;
const DRAUGHT: i128 = 100_000;
const GAP: i128 = 100_000_000;

/// The files of a profile as bytes; `least_heights` is `gm.csv`, which may be missing.
pub struct Files {
    pub ship: Vec<u8>,
    pub cells: Vec<u8>,
    pub hydrostatics: Vec<u8>,
    pub cross_curves: Vec<u8>,
    pub bonjean: Vec<u8>,
    pub tanks: Vec<u8>,
    pub least_heights: Option<Vec<u8>>,
}

/// Limits of the loads at a frame, in kg and kg mm.
pub struct Limits {
    pub shear: i128,
    pub hogging: i128,
    pub sagging: i128,
}

pub struct Ship {
    pub length: i128,
    pub draught_max: i128,
    pub trim_max: i128,
    pub list_max: i128,
    pub closing_max: i128,
    pub stations: Vec<i128>,
    pub blocks: Vec<Body>,
    /// The x of each frame, and what it may carry.
    pub frames: Vec<i128>,
    pub limits: Vec<Limits>,
    pub fills: Vec<(Vec<u8>, i128)>,
    pub cells: HashMap<Cell, Place>,
    /// By displacement: mean draught, KMT, LCB, LCF, moment to change trim.
    pub hydrostatics: Table,
    /// By displacement: KN at 0, 5, .., 60 degrees.
    pub cross_curves: Table,
    /// By draught: the immersed area at each station in cm2.
    pub bonjean: Table,
    /// By mass: x, y, z, half, free surface moment.
    pub tanks: HashMap<Vec<u8>, Table>,
    /// By displacement: the least metacentric height.
    pub least_heights: Option<Table>,
}

impl Ship {
    pub fn read(files: &Files) -> Answer<Ship> {
        let document = document::read(&files.ship)?;
        whole(&document, "downflooding_deg", 40, 90)?;
        let stations = read_stations(&document)?;
        let (frames, limits) = read_frames(&document, &stations)?;
        let mass = (1, MASS);
        let height = (0, LENGTH);
        let along = (-LENGTH, LENGTH);
        let hydro = [mass, (0, DRAUGHT), height, along, along, mass];
        let areas = [vec![(0, DRAUGHT)], vec![(0, AREA); stations.len()]].concat();
        let ship = Ship {
            length: whole(&document, "lbp_mm", 1, LENGTH)?,
            draught_max: whole(&document, "draught_max_mm", 1, DRAUGHT)?,
            trim_max: whole(&document, "trim_max_mm", 0, DRAUGHT)?,
            list_max: whole(&document, "list_max", 0, 10_000)?,
            closing_max: whole(&document, "closing_max_kg", 0, MASS)?,
            blocks: read_blocks(&document, &stations)?,
            fills: read_fills(&document)?,
            cells: read_cells(&files.cells, &stations)?,
            hydrostatics: read_table(&files.hydrostatics, &hydro, 200, GAP)?,
            cross_curves: read_table(
                &files.cross_curves,
                &[vec![mass], vec![height; 13]].concat(),
                64,
                GAP,
            )?,
            bonjean: read_table(&files.bonjean, &areas, 64, DRAUGHT)?,
            tanks: read_tanks(&files.tanks, &stations)?,
            least_heights: match &files.least_heights {
                Some(text) => Some(read_table(text, &[mass, height], 200, GAP)?),
                None => None,
            },
            stations,
            frames,
            limits,
        };
        for (i, (tank, _)) in ship.fills.iter().enumerate() {
            if !ship.tanks.contains_key(tank)
                || ship.fills[..i].iter().any(|(other, _)| other == tank)
            {
                return refuse("a fill names no tank, or one that is filled already");
            }
        }
        Ok(ship)
    }

    /// The filling of a tank, where its table has the mass. Its place and free surface moment are
    /// rounded down.
    pub fn filling(&self, tank: &[u8], mass: i128) -> Option<Body> {
        let record = self.tanks.get(tank)?.at(mass)?;
        let value = |column| record.value(column).floor();
        Some(Body {
            mass,
            place: Place { x: value(1), y: value(2), z: value(3), half: value(4) },
            free_surface: value(5),
        })
    }
}

fn whole(table: &Entries, key: &str, least: i128, greatest: i128) -> Answer<i128> {
    match table.get(key) {
        Some(Value::Integer(number)) => within(*number, least, greatest),
        _ => refuse("a key of ship.toml is missing, or is no whole number"),
    }
}

/// The elements of an array, none where it may be missing and is.
fn elements<'a>(
    document: &'a Entries,
    key: &str,
    least: usize,
    greatest: usize,
) -> Answer<&'a [Value]> {
    let values: &[Value] = match document.get(key) {
        Some(Value::Array(values)) => values,
        None if least == 0 => &[],
        _ => return refuse("an array of ship.toml is missing"),
    };
    if values.len() < least || values.len() > greatest {
        return refuse("an array of ship.toml has too few elements, or too many");
    }
    Ok(values)
}

fn tables<'a>(
    document: &'a Entries,
    key: &str,
    least: usize,
    greatest: usize,
) -> Answer<Vec<&'a Entries>> {
    let table = |value: &'a Value| match value {
        Value::Table(table) => Ok(table),
        _ => refuse("an element of ship.toml is no table"),
    };
    elements(document, key, least, greatest)?.iter().map(table).collect()
}

fn read_stations(document: &Entries) -> Answer<Vec<i128>> {
    let station = |value: &Value| match value {
        Value::Integer(x) => within(*x, -LENGTH, LENGTH),
        _ => refuse("a station is no whole number"),
    };
    let stations = elements(document, "stations_mm", 2, 64)?
        .iter()
        .map(station)
        .collect::<Answer<Vec<i128>>>()?;
    rising(&stations, 2 * LENGTH)?;
    Ok(stations)
}

/// Each number is above the one before it, by no more than the gap.
fn rising(numbers: &[i128], gap: i128) -> Answer<()> {
    if numbers.windows(2).any(|pair| pair[1] <= pair[0] || pair[1] - pair[0] > gap) {
        return refuse("numbers don't rise, or rise too much");
    }
    Ok(())
}

/// A place that lies with all its length between the first and the last station.
fn placed(place: Place, stations: &[i128]) -> Answer<Place> {
    if place.x - place.half < stations[0] || place.x + place.half > stations[stations.len() - 1] {
        return refuse("something reaches beyond the stations");
    }
    Ok(place)
}

fn read_blocks(document: &Entries, stations: &[i128]) -> Answer<Vec<Body>> {
    let block = |table: &Entries| {
        let length = |key| whole(table, key, -LENGTH, LENGTH);
        let place = Place {
            x: length("x_mm")?,
            y: length("y_mm")?,
            z: length("z_mm")?,
            half: whole(table, "half_mm", 0, LENGTH)?,
        };
        Ok(Body {
            mass: whole(table, "kg", 1, MASS)?,
            place: placed(place, stations)?,
            free_surface: 0,
        })
    };
    tables(document, "blocks", 1, 200)?.into_iter().map(block).collect()
}

fn read_frames(document: &Entries, stations: &[i128]) -> Answer<(Vec<i128>, Vec<Limits>)> {
    let mut frames = Vec::new();
    let mut limits = Vec::new();
    for table in tables(document, "frames", 1, 16)? {
        let x = whole(table, "x_mm", -LENGTH, LENGTH)?;
        if !stations.contains(&x) {
            return refuse("a frame stands at no station");
        }
        frames.push(x);
        let shear = whole(table, "shear_max_kg", 0, MASS)?;
        limits.push(Limits {
            shear,
            hogging: whole(table, "hog_max_kgmm", 0, MOMENT)?,
            sagging: whole(table, "sag_max_kgmm", 0, MOMENT)?,
        });
    }
    rising(&frames, 2 * LENGTH)?;
    Ok((frames, limits))
}

fn read_fills(document: &Entries) -> Answer<Vec<(Vec<u8>, i128)>> {
    let fill = |table: &Entries| match table.get("tank") {
        Some(Value::Text(name)) => Ok((name.as_bytes().to_vec(), whole(table, "kg", 0, MASS)?)),
        _ => refuse("a fill names no tank"),
    };
    tables(document, "fills", 0, 200)?.into_iter().map(fill).collect()
}

/// The records behind the heading, each with so many fields.
fn body_of(text: &[u8], fields: usize) -> Answer<Vec<Vec<Vec<u8>>>> {
    let mut all = records(text);
    if all.iter().any(|record| record.len() != fields) {
        return refuse("a record has a wrong number of fields");
    }
    if !all.is_empty() {
        all.remove(0);
    }
    Ok(all)
}

/// A table of numbers, each column within its limits.
fn read_table(text: &[u8], limits: &[(i128, i128)], greatest: usize, gap: i128) -> Answer<Table> {
    let row = |record: Vec<Vec<u8>>| {
        record
            .iter()
            .zip(limits)
            .map(|(field, limit)| number_within(field, limit.0, limit.1))
            .collect()
    };
    let rows =
        body_of(text, limits.len())?.into_iter().map(row).collect::<Answer<Vec<Vec<i128>>>>()?;
    as_table(rows, greatest, gap)
}

fn as_table(rows: Vec<Vec<i128>>, greatest: usize, gap: i128) -> Answer<Table> {
    if rows.len() < 2 || rows.len() > greatest {
        return refuse("a table has too few records, or too many");
    }
    rising(&rows.iter().map(|row| row[0]).collect::<Vec<i128>>(), gap)?;
    Ok(Table { rows })
}

/// x, y, z and half in four fields.
fn read_place(fields: &[Vec<u8>], stations: &[i128]) -> Answer<Place> {
    let length = |field: &[u8]| number_within(field, -LENGTH, LENGTH);
    let half = number_within(&fields[3], 0, LENGTH)?;
    placed(
        Place { x: length(&fields[0])?, y: length(&fields[1])?, z: length(&fields[2])?, half },
        stations,
    )
}

fn read_cells(text: &[u8], stations: &[i128]) -> Answer<HashMap<Cell, Place>> {
    let mut cells = HashMap::new();
    for record in body_of(text, 5)? {
        let cell = Cell::read(&record[0]).ok_or("a cell isn't six or seven digits")?;
        if cells.insert(cell, read_place(&record[1..], stations)?).is_some() {
            return refuse("a cell stands twice");
        }
    }
    if cells.is_empty() || cells.len() > 30_000 {
        return refuse("there are no cells, or too many");
    }
    Ok(cells)
}

fn read_tanks(text: &[u8], stations: &[i128]) -> Answer<HashMap<Vec<u8>, Table>> {
    let mut rows: Vec<(Vec<u8>, Vec<Vec<i128>>)> = Vec::new();
    for record in body_of(text, 7)? {
        let name = record[0].clone();
        if name.is_empty() || name.len() > 16 {
            return refuse("a tank's name has no bytes, or too many");
        }
        let place = read_place(&record[2..6], stations)?;
        let mass = number_within(&record[1], 0, MASS)?;
        let row = vec![
            mass,
            place.x,
            place.y,
            place.z,
            place.half,
            number_within(&record[6], 0, FREE_SURFACE)?,
        ];
        match rows.last_mut() {
            Some((last, of_tank)) if *last == name => of_tank.push(row),
            _ => rows.push((name, vec![row])),
        }
    }
    if rows.len() > 200 {
        return refuse("there are too many tanks");
    }
    let mut tanks = HashMap::new();
    for (name, of_tank) in rows {
        if tanks.insert(name, as_table(of_tank, 64, GAP)?).is_some() {
            return refuse("a tank's records don't stand together");
        }
    }
    Ok(tanks)
}
