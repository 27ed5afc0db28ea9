//! What messages say: the items of a bay plan, the lifts of a movement instruction, the steps of a
//! steps file.

use crate::bodies::Cell;
use crate::interchange::{self, digits, Message, Segment};
use crate::table_text::{number, number_within, records};
use crate::{refuse, Answer};

/// A container: the cell it stands in, its identification (which may be empty), and its mass in kg.
#[derive(Clone)]
pub struct Item {
    pub cell: Cell,
    pub name: Vec<u8>,
    pub mass: i128,
}

#[derive(Clone)]
pub enum Step {
    Load(Item),
    Discharge { cell: Cell, name: Vec<u8> },
    Fill { tank: Vec<u8>, mass: i128 },
    Restow { from: Cell, to: Cell, name: Vec<u8> },
}

#[derive(Clone, Copy, PartialEq)]
enum Handling {
    Load,
    Discharge,
}

/// A cell's location, and of each kind the first segment that follows it in its group.
struct Group<'a> {
    handling: Handling,
    location: &'a Segment<'a>,
    container: Option<&'a Segment<'a>>,
    verified: Option<&'a Segment<'a>>,
    gross: Option<&'a Segment<'a>>,
}

/// The items of a bay plan.
pub fn items(text: &[u8]) -> Answer<Vec<Item>> {
    let message = interchange::open(text, b"BAPLIE")?;
    let mut items = Vec::new();
    for group in groups(&message, Some(Handling::Load))? {
        items.extend(group.item(message.decimal_mark)?);
    }
    if items.len() > 30_000 {
        return refuse("the bay plan has too many items");
    }
    Ok(items)
}

/// The lifts of a movement instruction.
pub fn lifts(text: &[u8]) -> Answer<Vec<Step>> {
    let message = interchange::open(text, b"MOVINS")?;
    let mut lifts = Vec::new();
    for group in groups(&message, None)? {
        if group.handling == Handling::Load {
            lifts.extend(group.item(message.decimal_mark)?.map(Step::Load));
        } else if group.container.or(group.verified).or(group.gross).is_some() {
            lifts.push(Step::Discharge { cell: group.cell()?, name: group.name()? });
        }
    }
    if lifts.len() > 200_000 {
        return refuse("the instruction has too many lifts");
    }
    Ok(lifts)
}

/// The groups of a message. Where a handling is given, it holds for all of them; else those that
/// the message orders.
fn groups<'a>(message: &'a Message<'a>, given: Option<Handling>) -> Answer<Vec<Group<'a>>> {
    let mut groups: Vec<Group> = Vec::new();
    let mut handling = given;
    let mut in_group = false;
    for segment in &message.segments {
        let qualifier = segment.component(1, 0);
        match (&*segment.tag(), &*qualifier) {
            (b"HAN", qualifier) if given.is_none() => {
                handling = match qualifier {
                    b"LOA" => Some(Handling::Load),
                    b"DIS" => Some(Handling::Discharge),
                    _ => return refuse("a handling is neither LOA nor DIS"),
                };
                in_group = false;
            }
            (b"LOC", b"147") => {
                let handling = handling.ok_or("no handling stands before a group")?;
                groups.push(Group {
                    handling,
                    location: segment,
                    container: None,
                    verified: None,
                    gross: None,
                });
                in_group = true;
            }
            (tag, qualifier) if in_group => {
                let group = groups.last_mut().expect("the group is open");
                let part = match (tag, qualifier) {
                    (b"EQD", _) => &mut group.container,
                    (b"MEA", b"VGM") => &mut group.verified,
                    (b"MEA", b"WT") => &mut group.gross,
                    _ => continue,
                };
                part.get_or_insert(segment);
            }
            _ => {}
        }
    }
    for group in &groups {
        group.cell()?;
        group.name()?;
    }
    Ok(groups)
}

impl Group<'_> {
    fn cell(&self) -> Answer<Cell> {
        Ok(Cell::read(&self.location.component(2, 0))
            .ok_or("a location isn't six or seven digits")?)
    }

    fn name(&self) -> Answer<Vec<u8>> {
        let name =
            self.container.map_or(Vec::new(), |container| container.component(2, 0).into_owned());
        if name.len() > 17 {
            return refuse("an identification is too long");
        }
        Ok(name)
    }

    /// The container that the group speaks of, if it speaks of one.
    fn item(&self, decimal_mark: u8) -> Answer<Option<Item>> {
        match self.verified.or(self.gross) {
            Some(measure) => {
                if *measure.component(3, 0) != *b"KGM" {
                    return refuse("a mass isn't in KGM");
                }
                let mass = mass(&measure.component(3, 1), decimal_mark)?;
                Ok(Some(Item { cell: self.cell()?, name: self.name()?, mass }))
            }
            None if self.container.is_some() => refuse("a container has no mass"),
            None => Ok(None),
        }
    }
}

/// Digits, and optionally a mark and further digits. A fraction that isn't zero rounds up.
fn mass(text: &[u8], decimal_mark: u8) -> Answer<i128> {
    let is_mark =
        |byte: &u8| !byte.is_ascii_digit() && (b".,".contains(byte) || *byte == decimal_mark);
    let (whole, fraction) = match text.iter().position(is_mark) {
        Some(at) => (&text[..at], &text[at + 1..]),
        None => (text, &[][..]),
    };
    if text.len() > 35 || !fraction.iter().all(u8::is_ascii_digit) {
        return refuse("a mass is no number");
    }
    let above = fraction.iter().any(|digit| *digit != b'0');
    let kilograms = i128::from(digits(whole).ok_or("a mass is no number")?) + i128::from(above);
    if kilograms > 999_999 {
        return refuse("a mass is too great");
    }
    Ok(kilograms)
}

/// The steps of a steps file, which puts the lifts of an instruction into an order.
pub fn steps(text: &[u8], lifts: &[Step]) -> Answer<Vec<Step>> {
    let all = records(text);
    if all.iter().any(|record| record.len() != 4) {
        return refuse("a step hasn't four fields");
    }
    let mut done = vec![false; lifts.len()];
    let mut steps = Vec::new();
    for record in all.iter().skip(1) {
        let field = |i: usize| record[i].as_slice();
        let cell = |i: usize| Cell::read(field(i)).ok_or("a cell isn't six or seven digits");
        steps.push(match field(0) {
            b"lift" if field(2).is_empty() && field(3).is_empty() => {
                let lift =
                    usize::try_from(number(field(1))? - 1).or(refuse("there is no such lift"))?;
                if lift >= lifts.len() || std::mem::replace(&mut done[lift], true) {
                    return refuse("there is no such lift, or it stands twice");
                }
                lifts[lift].clone()
            }
            b"tank" if (1..=16).contains(&field(1).len()) && field(3).is_empty() => Step::Fill {
                tank: field(1).to_vec(),
                mass: number_within(field(2), 0, 1_000_000_000)?,
            },
            b"restow" if field(3).len() <= 17 => {
                Step::Restow { from: cell(1)?, to: cell(2)?, name: field(3).to_vec() }
            }
            _ => return refuse("a step is none of the three kinds"),
        });
    }
    if done.contains(&false) || steps.len() > 200_000 {
        return refuse("a lift is missing, or there are too many steps");
    }
    Ok(steps)
}
