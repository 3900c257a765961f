//! CSV texts, good and damaged. A table has a line of names and a line for each sample, as its fields are to
//! stand in the text.

use crate::csv::{IS_SPEED, NAMES};
use crate::gen::Rng;
use crate::reference::Sample;

pub type Table = Vec<Vec<String>>;

/// A number as A3 writes it: no plus, no needless zero, no minus before zero.
pub fn plain(field: usize, number: i128) -> String {
    let sign = if number < 0 { "-" } else { "" };
    let size = number.abs();
    if IS_SPEED[field] {
        format!("{sign}{}.{:02}", size / 100, size % 100)
    } else {
        format!("{sign}{size}")
    }
}

pub fn table_of(list: &[Sample]) -> Table {
    let names = NAMES.map(String::from).to_vec();
    let line = |s: &Sample| {
        let fields = s.fields().into_iter().enumerate();
        fields
            .map(|(field, number)| plain(field, number.into()))
            .collect()
    };
    [names].into_iter().chain(list.iter().map(line)).collect()
}

/// RFC 4180: commas between the fields, CRLF after each line.
pub fn text_of(table: &Table) -> Vec<u8> {
    let mut text = Vec::new();
    for line in table {
        text.extend(line.join(",").bytes());
        text.extend(b"\r\n");
    }
    text
}

/// The text of a table with one field replaced.
pub fn text_with(table: &Table, line: usize, field: usize, content: &str) -> Vec<u8> {
    let mut table = table.clone();
    table[line][field] = content.into();
    text_of(&table)
}

pub fn quoted(content: &str) -> String {
    format!("\"{content}\"")
}

/// A plain number with so many zeros before its digits.
pub fn with_zeros(number: &str, zeros: usize) -> String {
    let digits = number.trim_start_matches('-');
    let sign = &number[..number.len() - digits.len()];
    format!("{sign}{}{digits}", "0".repeat(zeros))
}

/// A plain number with a sign where it has none; before a zero it may be a minus.
pub fn with_sign(rng: &mut Rng, number: &str) -> String {
    let is_zero = !number.bytes().any(|byte| (b'1'..=b'9').contains(&byte));
    match number.starts_with('-') {
        true => number.into(),
        false if is_zero && rng.one_in(2) => format!("-{number}"),
        false => format!("+{number}"),
    }
}

/// The same numbers and names, some of them signed, with needless zeros, quoted: each once in so many.
pub fn restyle(rng: &mut Rng, table: &mut Table, one_in: u64) {
    for (place, line) in table.iter_mut().enumerate() {
        for content in line {
            if place > 0 && rng.one_in(one_in) {
                let most = rng.pick(&[1, 2, 30]);
                *content = with_zeros(content, rng.within(1, most) as usize);
            }
            if place > 0 && rng.one_in(one_in) {
                *content = with_sign(rng, content);
            }
            if rng.one_in(one_in) {
                *content = quoted(content);
            }
        }
    }
}

/// Bytes that mean something in a text, or nearly do.
pub const BYTES: &[u8] = b"\r\n\",.+-0123456789 \t'eE;_x\0\x0b\x7f\x80\xa0\xff";

/// One to three edits of single bytes or short parts. Three times in four they are after the header line, if
/// there is anything.
pub fn damage(rng: &mut Rng, text: &mut Vec<u8>) {
    for _ in 0..rng.within(1, 3) {
        if text.is_empty() {
            return;
        }
        let header = text.iter().position(|&byte| byte == b'\n').unwrap_or(0);
        let from = if rng.one_in(4) { 0 } else { header };
        let at = from + rng.draw() as usize % (text.len() - from);
        let to = text.len().min(at + rng.within(1, 4) as usize);
        let byte = rng.pick(BYTES);
        match rng.within(0, 7) {
            0 | 1 => text[at] = byte,
            2 | 3 => text.insert(at, byte),
            4 => drop(text.remove(at)),
            5 => drop(text.drain(at..to)),
            6 => {
                let part = text[at..to].to_vec();
                text.splice(at..at, part);
            }
            _ => text.swap(at, to - 1),
        }
    }
    if rng.one_in(20) {
        text.truncate(rng.draw() as usize % (text.len() + 1));
    }
}

/// The decimal digits of 2^power + more, more being smaller than 2^power either way.
pub fn beside_power(power: u32, more: i32) -> String {
    // the lowest first
    let mut digits = vec![1];
    for (times, more) in std::iter::repeat_n((2, 0), power as usize).chain([(1, more)]) {
        let mut carried = more;
        for digit in &mut digits {
            let sum = times * *digit + carried;
            (*digit, carried) = (sum.rem_euclid(10), sum.div_euclid(10));
        }
        while carried > 0 {
            digits.push(carried % 10);
            carried /= 10;
        }
    }
    let digits: String = digits.iter().rev().map(i32::to_string).collect();
    digits.trim_start_matches('0').into()
}
