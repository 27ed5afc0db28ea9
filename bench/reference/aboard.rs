//! What is aboard, on arrival and step by step.

use crate::bodies::{Body, Cell};
use crate::messages::{Item, Step};
use crate::profile::Ship;
use crate::{refuse, Answer};
use std::collections::HashMap;

/// What a step takes out and puts in, and the word that the report has for it.
pub struct Change {
    pub word: String,
    pub out: Option<Body>,
    pub put: Option<Body>,
}

pub struct Aboard<'a> {
    ship: &'a Ship,
    containers: HashMap<Cell, Item>,
    fillings: HashMap<Vec<u8>, Body>,
}

impl<'a> Aboard<'a> {
    /// The ship with the items of the bay plan, and with her fills.
    pub fn on_arrival(ship: &'a Ship, items: Vec<Item>) -> Answer<Aboard<'a>> {
        let mut aboard = Aboard { ship, containers: HashMap::new(), fillings: HashMap::new() };
        for item in items {
            aboard.load(item)?;
        }
        for (tank, mass) in &ship.fills {
            aboard.fill(tank, *mass)?;
        }
        Ok(aboard)
    }

    /// The blocks of the light ship, the fillings and the containers.
    pub fn bodies(&self) -> Vec<Body> {
        let containers = self.containers.values().map(|item| self.body(item));
        self.ship
            .blocks
            .iter()
            .copied()
            .chain(self.fillings.values().copied())
            .chain(containers)
            .collect()
    }

    /// What each step changes, in their order.
    pub fn changes(&mut self, steps: Vec<Step>) -> Answer<Vec<Change>> {
        if steps.len() > 120_000 {
            return refuse("there are too many steps");
        }
        steps.into_iter().map(|step| self.change(step)).collect()
    }

    fn change(&mut self, step: Step) -> Answer<Change> {
        match step {
            Step::Load(item) => {
                let word = format!("L{}", item.cell);
                Ok(Change { word, out: None, put: Some(self.load(item)?) })
            }
            Step::Discharge { cell, name } => {
                let item = self.discharge(cell, &name)?;
                Ok(Change { word: format!("D{cell}"), out: Some(self.body(&item)), put: None })
            }
            Step::Fill { tank, mass } => {
                let visible = tank.iter().map(|byte| {
                    if (33..=126).contains(byte) {
                        char::from(*byte)
                    } else {
                        '?'
                    }
                });
                let word = format!("T{}", visible.collect::<String>());
                let (out, put) = self.fill(&tank, mass)?;
                Ok(Change { word, out, put: Some(put) })
            }
            Step::Restow { from, to, name } => {
                let item = self.discharge(from, &name)?;
                let out = self.body(&item);
                let put = self.load(Item { cell: to, ..item })?;
                Ok(Change { word: format!("R{from}>{to}"), out: Some(out), put: Some(put) })
            }
        }
    }

    /// A container at its cell's place.
    fn body(&self, item: &Item) -> Body {
        Body { mass: item.mass, place: self.ship.cells[&item.cell], free_surface: 0 }
    }

    fn load(&mut self, item: Item) -> Answer<Body> {
        let cell = item.cell;
        if !self.ship.cells.contains_key(&cell) {
            return refuse("the ship hasn't the cell");
        }
        // A cell of 40 feet meets the next one of 40 feet, two bays on.
        let neighbours = (cell.bay - 2..=cell.bay + 2).map(|bay| Cell { bay, ..cell });
        if neighbours
            .into_iter()
            .any(|other| other.overlaps(cell) && self.containers.contains_key(&other))
        {
            return refuse("the cell is taken, or another container overlaps");
        }
        let body = self.body(&item);
        self.containers.insert(cell, item);
        Ok(body)
    }

    fn discharge(&mut self, cell: Cell, name: &[u8]) -> Answer<Item> {
        let item = self.containers.remove(&cell).ok_or("no container stands in the cell")?;
        if !name.is_empty() && !item.name.is_empty() && item.name != name {
            return refuse("another container stands in the cell");
        }
        Ok(item)
    }

    /// Gives what the tank held before, if it held anything, and what it holds now.
    fn fill(&mut self, tank: &[u8], mass: i128) -> Answer<(Option<Body>, Body)> {
        let filling = self
            .ship
            .filling(tank, mass)
            .ok_or("the ship hasn't the tank, or its table hasn't the mass")?;
        Ok((self.fillings.insert(tank.to_vec(), filling), filling))
    }
}
