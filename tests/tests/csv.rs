//! The reference's CSV text by other ways: its floats beside Rust's own parser and beside their neighbours,
//! its reader beside RFC 4180's grammar, its writer beside Rust's formatting.

use std::collections::BTreeMap;
use windshear_tests::csv::*;
use windshear_tests::gen::*;
use windshear_tests::reference::{hundredths, refusal, Sample, RANGES};
use windshear_tests::texts::*;

/// Rust's own way from a decimal to a float.
fn parsed(hundredths: i32) -> u32 {
    let decimal = plain(0, hundredths.into());
    decimal.parse::<f32>().unwrap().to_bits()
}

/// Every number of hundredths to ten thousand knots, those beside each power of two and of ten, and random
/// ones of every size. From 2^24 knots on there are ties, which go to the even float.
#[test]
fn nearest_as_rust_parses() {
    let mut rng = Rng::new(301);
    let powers = (0..31)
        .map(|k| 1 << k)
        .chain((0..10).map(|k| 10_i32.pow(k)));
    let beside = powers.flat_map(|power| (-2..=2).map(move |beside| power.wrapping_add(beside)));
    let ties = (1 << 24..21_474_836).step_by(997).map(|knots| 100 * knots);
    let sizes = (0..32).flat_map(|shift| {
        let random = |_| (rng.draw() as u32 >> shift) as i32;
        (0..40_000).map(random).collect::<Vec<_>>()
    });
    let all = (0..=1_000_000).chain(beside).chain(ties).chain(sizes);
    let all = all.flat_map(|h| [h, h.wrapping_neg()]).chain([i32::MIN]);
    let mut compared = 0;
    for h in all {
        assert_eq!(nearest_float(h), parsed(h), "{h}");
        compared += 1;
    }
    println!("compared {compared} floats of the reference and of Rust's parser");
}

/// IEEE 754: a positive float that is not subnormal, in 2^-40ths.
fn in_parts(bits: u32) -> i128 {
    let mantissa = i128::from(bits & 0x7f_ffff | 0x80_0000);
    mantissa << ((bits >> 23) + 40 - 150)
}

/// Every speed that is accepted: no float is nearer, none is as near, and it has the same hundredths.
#[test]
fn nearest_in_range_without_ties() {
    let speeds = (0..10).filter(|&field| IS_SPEED[field]);
    let mut compared = 0;
    for h in speeds.flat_map(|field| RANGES[field].0..=RANGES[field].1) {
        let bits = nearest_float(h);
        assert_eq!(hundredths(bits), Some(h.into()));
        assert_eq!(bits >> 31 == 1, h < 0);
        if h != 0 {
            let size = bits & 0x7fff_ffff;
            let exact = i128::from(h.unsigned_abs()) << 40;
            let [below, here, above] =
                [size - 1, size, size + 1].map(|bits| (100 * in_parts(bits) - exact).abs());
            assert!(here < below && here < above, "{h}");
        }
        compared += 2;
    }
    assert_eq!(nearest_float(0), 0);
    println!("compared {compared} floats with their neighbours and hundredths");
}

/// RFC 4180's grammar as it stands, but for the CRLF after the last line, which A3 asks for: the fields of
/// the first line, their quotes taken off and doubled ones made one, and the text after it.
fn first_line(text: &[u8]) -> Option<(Vec<Vec<u8>>, &[u8])> {
    let is_textdata = |byte: u8| matches!(byte, 0x20..=0x21 | 0x23..=0x2b | 0x2d..=0x7e);
    let mut fields = Vec::new();
    let mut at = 0;
    loop {
        let mut field = Vec::new();
        if text.get(at) == Some(&b'"') {
            at += 1;
            loop {
                match text.get(at..)? {
                    [b'"', b'"', ..] => {
                        field.push(b'"');
                        at += 2;
                    }
                    [b'"', ..] => break at += 1,
                    [byte, ..] if is_textdata(*byte) || b",\r\n".contains(byte) => {
                        field.push(*byte);
                        at += 1;
                    }
                    _ => return None,
                }
            }
        } else {
            let rest = text.get(at..)?;
            let len = rest.iter().take_while(|&&byte| is_textdata(byte)).count();
            field.extend(&rest[..len]);
            at += len;
        }
        fields.push(field);
        match text.get(at..)? {
            [b',', ..] => at += 1,
            [b'\r', b'\n', rest @ ..] => return Some((fields, rest)),
            _ => return None,
        }
    }
}

/// A3: a field's number, a speed in hundredths; `None` is malformed. More than nine digits that are not
/// leading zeros are out of every range, and so is 10^9.
fn number(content: &[u8], is_speed: bool) -> Option<i32> {
    let content = std::str::from_utf8(content).ok()?;
    let size = content.strip_prefix(['+', '-']).unwrap_or(content);
    let digits = if is_speed {
        let (whole, decimals) = size.split_once('.')?;
        if whole.is_empty() || decimals.len() != 2 {
            return None;
        }
        whole.to_owned() + decimals
    } else {
        size.to_owned()
    };
    if digits.is_empty() || !digits.chars().all(|c| c.is_ascii_digit()) {
        return None;
    }
    let digits = digits.trim_start_matches('0');
    let size = match digits.len() {
        0 => 0,
        1..=9 => digits.parse().unwrap(),
        _ => 1_000_000_000,
    };
    Some(if content.starts_with('-') {
        -size
    } else {
        size
    })
}

/// A3 by the grammar: the whole text for each number before the next.
fn by_grammar(text: &[u8]) -> Result<Vec<Sample>, Refusal> {
    let Some((names, mut rest)) = first_line(text) else {
        return Err((23, 0));
    };
    if names != NAMES.map(str::as_bytes) {
        return Err((23, 0));
    }
    let mut list = Vec::new();
    while !rest.is_empty() {
        let (fields, after) = first_line(rest).ok_or((24, 0))?;
        let numbers = fields.iter().zip(IS_SPEED);
        let numbers: Option<Vec<_>> = numbers
            .map(|(field, is_speed)| number(field, is_speed))
            .collect();
        if fields.len() != 10 {
            return Err((24, 0));
        }
        let numbers = numbers.ok_or((24, 0))?;
        list.push(Sample::from_fields(numbers.try_into().unwrap()));
        rest = after;
    }
    let numbers = list.iter().map(refusal);
    match numbers.enumerate().find(|&(_, number)| number != 0) {
        Some((place, number)) => Err((number, place)),
        None if list.len() > 2_600 => Err((5, 0)),
        None => Ok(list),
    }
}

/// Texts in every form, good, damaged, and with numbers out of range.
#[test]
fn read_as_the_grammar_has_it() {
    let mut rng = Rng::new(302);
    let mut came = BTreeMap::new();
    for round in 0..120_000 {
        let most = rng.pick(&[0, 2, 2, 12]);
        let n = rng.within(0, most);
        let mut table = table_of(&any(&mut rng, n));
        let one_in = rng.pick(&[2, 8, 1_000]);
        restyle(&mut rng, &mut table, one_in);
        if rng.one_in(4) && n > 0 {
            let (line, field) = (rng.within(1, n) as usize, rng.within(0, 9) as usize);
            table[line][field] = plain(field, rng.draw() as i32 as i128);
        }
        let mut text = text_of(&table);
        if round % 3 > 0 {
            damage(&mut rng, &mut text);
        }
        let read = read(&text);
        assert_eq!(read, by_grammar(&text), "{}", text.escape_ascii());
        *came
            .entry(read.err().map_or(0, |(number, _)| number))
            .or_insert(0) += 1;
    }
    println!(
        "compared {} texts read by the reference and by the grammar, by number {came:?}",
        came.values().sum::<u64>()
    );
    assert!(came
        .keys()
        .copied()
        .eq([0].into_iter().chain(11..=20).chain(23..=24)));
    assert!(came.values().all(|&n| n > 50));
}

/// Long texts, around the greatest count and beyond.
#[test]
fn long_texts_as_the_grammar_has_them() {
    let mut rng = Rng::new(303);
    let mut compared = 0;
    for n in [2_599, 2_600, 2_601, 70_000] {
        let list: Vec<_> = (0..n).map(|_| random_sample(&mut rng)).collect();
        let table = table_of(&list);
        assert_eq!(read(&text_of(&table)), by_grammar(&text_of(&table)));
        for (line, field) in [(n, 0), (n / 2, 7), (1, 9)] {
            let text = text_with(&table, line, field, "70000");
            assert_eq!(read(&text), by_grammar(&text));
            let text = text_with(&table, line, field, "70000.00");
            assert_eq!(read(&text), by_grammar(&text));
        }
        compared += 7;
    }
    println!("compared {compared} long texts read by the reference and by the grammar");
}

/// The writer, and that the reader has the same samples again.
#[test]
fn written_as_rust_formats() {
    let mut rng = Rng::new(304);
    let mut lines = 0;
    for round in 0..400 {
        let most = if round % 100 == 0 { 2_600 } else { 100 };
        let n = rng.within(0, most);
        let mut list = any(&mut rng, n);
        list.extend(RANGES.iter().enumerate().flat_map(|(field, &(low, high))| {
            let near_zero = [-101, -100, -99, -10, -9, -1, 0, 1, 9, 10, 99, 100, 101];
            let values = near_zero.into_iter().chain([low, high]);
            let values = values.filter(move |value| (low..=high).contains(value));
            values.map(move |value| {
                let mut fields = CALM.fields();
                fields[field] = value;
                Sample::from_fields(fields)
            })
        }));
        let text = write(&list);
        assert!(text == text_of(&table_of(&list)));
        if list.len() <= 2_600 {
            // a text has no frame numbers
            let fields = |list: &[Sample]| list.iter().map(Sample::fields).collect::<Vec<_>>();
            assert_eq!(fields(&read(&text).unwrap()), fields(&list));
        }
        lines += list.len();
    }
    println!("compared {lines} lines written by the reference and by Rust's formatting");
}
