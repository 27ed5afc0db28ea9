//! The interchange of a message (ISO 9735): its characters, its segments, and what its envelope
//! asks for.

use crate::{refuse, Answer};
use std::borrow::Cow;

#[derive(Clone, Copy)]
struct Characters {
    component: u8,
    element: u8,
    decimal_mark: u8,
    release: Option<u8>,
    terminator: u8,
}

/// A segment without its terminator, as it is spelt.
pub struct Segment<'a> {
    spelt: &'a [u8],
    characters: Characters,
}

impl<'a> Segment<'a> {
    fn elements(&self) -> Pieces<'a> {
        pieces(self.spelt, self.characters.element, self.characters.release)
    }

    /// A component, without release characters; one that isn't there is empty. Elements are
    /// numbered from that of the tag, which is 0.
    pub fn component(&self, element: usize, component: usize) -> Cow<'a, [u8]> {
        let element = self.elements().nth(element).unwrap_or(&[]);
        let spelt = pieces(element, self.characters.component, self.characters.release)
            .nth(component)
            .unwrap_or(&[]);
        literal(spelt, self.characters.release)
    }

    pub fn tag(&self) -> Cow<'a, [u8]> {
        self.component(0, 0)
    }

    fn is_lawful(&self) -> bool {
        let short = |element| {
            pieces(element, self.characters.component, self.characters.release).count() <= 64
        };
        !self.tag().is_empty() && self.elements().count() <= 64 && self.elements().all(short)
    }
}

/// The pieces of a text between separators that aren't released.
struct Pieces<'a> {
    rest: Option<&'a [u8]>,
    separator: u8,
    release: Option<u8>,
}

fn pieces(text: &[u8], separator: u8, release: Option<u8>) -> Pieces<'_> {
    Pieces { rest: Some(text), separator, release }
}

impl<'a> Iterator for Pieces<'a> {
    type Item = &'a [u8];

    fn next(&mut self) -> Option<&'a [u8]> {
        let text = self.rest?;
        let mut at = 0;
        while at < text.len() {
            if text[at] == self.separator {
                self.rest = Some(&text[at + 1..]);
                return Some(&text[..at]);
            }
            at += if Some(text[at]) == self.release { 2 } else { 1 };
        }
        self.rest = None;
        Some(text)
    }
}

/// A piece without its release characters.
fn literal(spelt: &[u8], release: Option<u8>) -> Cow<'_, [u8]> {
    if !spelt.iter().any(|byte| Some(*byte) == release) {
        return Cow::Borrowed(spelt);
    }
    let mut bytes = spelt.iter();
    let mut literal = Vec::new();
    while let Some(byte) = bytes.next() {
        literal.extend(if Some(*byte) == release { bytes.next() } else { Some(byte) });
    }
    Cow::Owned(literal)
}

/// What stands between `UNH` and `UNT`, and the interchange's decimal mark.
pub struct Message<'a> {
    pub segments: Vec<Segment<'a>>,
    pub decimal_mark: u8,
}

pub fn open<'a>(text: &'a [u8], name: &[u8]) -> Answer<Message<'a>> {
    let mut text = skip_blanks(text);
    let mut characters = Characters {
        component: b':',
        element: b'+',
        decimal_mark: b'.',
        release: Some(b'?'),
        terminator: b'\'',
    };
    if let Some(advice) = text.strip_prefix(b"UNA") {
        characters = advised(advice)?;
        text = &advice[6..];
    }
    let mut segments = split(text, characters)?;
    if segments.len() < 4 || *segments[0].tag() != *b"UNB" || *segments[1].tag() != *b"UNH" {
        return refuse("the message doesn't begin with UNB and UNH");
    }
    let kind: [&[u8]; 4] = [name, b"D", b"95B", b"UN"];
    if (0..4).any(|i| *segments[1].component(2, i) != *kind[i]) {
        return refuse("the message is of another kind");
    }
    check_trailers(&segments)?;
    segments.truncate(segments.len() - 2);
    Ok(Message { segments: segments.split_off(2), decimal_mark: characters.decimal_mark })
}

fn skip_blanks(text: &[u8]) -> &[u8] {
    let blanks = text.iter().take_while(|byte| b"\r\n\t ".contains(byte)).count();
    &text[blanks..]
}

/// The characters that `UNA` sets.
fn advised(advice: &[u8]) -> Answer<Characters> {
    if advice.len() < 6 {
        return refuse("the text ends in UNA");
    }
    let release = if advice[3] == b' ' { None } else { Some(advice[3]) };
    let marks: Vec<u8> = [Some(advice[0]), Some(advice[1]), Some(advice[5]), release]
        .into_iter()
        .flatten()
        .collect();
    for (i, mark) in marks.iter().enumerate() {
        if marks[..i].contains(mark) || mark.is_ascii_alphanumeric() || b"\r\n\t ".contains(mark) {
            return refuse("the characters of UNA can't serve");
        }
    }
    Ok(Characters {
        component: advice[0],
        element: advice[1],
        decimal_mark: advice[2],
        release,
        terminator: advice[5],
    })
}

/// Splits a text into its segments up to `UNZ`, behind which only blanks stand.
fn split(text: &[u8], characters: Characters) -> Answer<Vec<Segment<'_>>> {
    let mut segments = Vec::new();
    let mut rest = skip_blanks(text);
    loop {
        let spelt = pieces(rest, characters.terminator, characters.release).next().unwrap_or(&[]);
        if spelt.len() == rest.len() {
            return refuse("the text ends in a segment");
        }
        rest = skip_blanks(&rest[spelt.len() + 1..]);
        let segment = Segment { spelt, characters };
        if !segment.is_lawful() {
            return refuse("a segment has no tag, or too many elements");
        }
        let is_last = *segment.tag() == *b"UNZ";
        segments.push(segment);
        if is_last {
            break;
        }
    }
    if !rest.is_empty() {
        return refuse("something stands behind UNZ");
    }
    Ok(segments)
}

/// `UNT` and `UNZ` say how many segments there are, and repeat the references.
fn check_trailers(segments: &[Segment]) -> Answer<()> {
    let trailer = &segments[segments.len() - 2];
    let end = &segments[segments.len() - 1];
    let is_alone = segments[2..segments.len() - 2].iter().all(|segment| *segment.tag() != *b"UNT");
    if *trailer.tag() != *b"UNT" || !is_alone {
        return refuse("UNT doesn't stand before UNZ alone");
    }
    let count = trailer.component(1, 0);
    if count.len() > 10
        || digits(&count) != Some(segments.len() as u64 - 2)
        || digits(&end.component(1, 0)) != Some(1)
    {
        return refuse("a count is wrong");
    }
    if trailer.component(2, 0) != segments[1].component(1, 0)
        || end.component(2, 0) != segments[0].component(5, 0)
    {
        return refuse("a reference is wrong");
    }
    Ok(())
}

/// The number that one or more digits write.
pub fn digits(text: &[u8]) -> Option<u64> {
    if text.is_empty() || !text.iter().all(u8::is_ascii_digit) {
        return None;
    }
    Some(
        text.iter().fold(0, |sum: u64, digit| {
            sum.saturating_mul(10).saturating_add(u64::from(digit - b'0'))
        }),
    )
}
