//! Comma-separated values: records of fields, and the numbers in them.

use crate::{refuse, Answer};

/// The records of a text. A quote counts as a field's first byte only; empty lines are no records.
pub fn records(text: &[u8]) -> Vec<Vec<Vec<u8>>> {
    let text = text.strip_prefix(b"\xef\xbb\xbf").unwrap_or(text);
    let mut records = Vec::new();
    let mut record: Vec<Vec<u8>> = Vec::new();
    let mut field = Vec::new();
    let mut begun = false;
    let mut at = 0;
    while at < text.len() {
        match text[at] {
            b',' => {
                record.push(std::mem::take(&mut field));
                begun = true;
            }
            b'\r' | b'\n' => {
                end_record(&mut records, &mut record, &mut field, begun);
                begun = false;
            }
            b'"' if field.is_empty() => {
                at = quoted(text, at + 1, &mut field);
                begun = true;
                continue;
            }
            byte => {
                field.push(byte);
                begun = true;
            }
        }
        at += 1;
    }
    end_record(&mut records, &mut record, &mut field, begun);
    records
}

fn end_record(
    records: &mut Vec<Vec<Vec<u8>>>,
    record: &mut Vec<Vec<u8>>,
    field: &mut Vec<u8>,
    begun: bool,
) {
    if begun {
        record.push(std::mem::take(field));
        records.push(std::mem::take(record));
    }
}

/// Reads what stands behind an opening quote; gives the place behind the closing one, or the end of
/// the text.
fn quoted(text: &[u8], from: usize, field: &mut Vec<u8>) -> usize {
    let mut at = from;
    while at < text.len() {
        if text[at] == b'"' {
            if text.get(at + 1) != Some(&b'"') {
                return at + 1;
            }
            at += 1;
        }
        field.push(text[at]);
        at += 1;
    }
    at
}

/// An optional minus sign and 1 to 18 digits, with spaces around them.
pub fn number(field: &[u8]) -> Answer<i128> {
    let text = String::from_utf8_lossy(field);
    let text = text.trim_matches(' ');
    let digits = text.strip_prefix('-').unwrap_or(text);
    if digits.is_empty() || digits.len() > 18 || !digits.bytes().all(|byte| byte.is_ascii_digit()) {
        return refuse("a field is no number");
    }
    text.parse().or(refuse("a field is no number"))
}

/// A number from one limit to another.
pub fn number_within(field: &[u8], least: i128, greatest: i128) -> Answer<i128> {
    within(number(field)?, least, greatest)
}

pub fn within(number: i128, least: i128, greatest: i128) -> Answer<i128> {
    if number < least || number > greatest {
        return refuse("a number is out of its range");
    }
    Ok(number)
}
