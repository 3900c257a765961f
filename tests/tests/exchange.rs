//! CSV texts imported by the library, beside the reference: good ones in every form, damaged ones byte by
//! byte, and every refusal in its order. Each text that is accepted is exported again.

use windshear_tests::csv::{nearest_float, IS_SPEED, NAMES};
use windshear_tests::exchange::Exchange;
use windshear_tests::gen::*;
use windshear_tests::reference::{Sample, RANGES};
use windshear_tests::texts::*;

/// The calm sample with one field replaced.
fn calm_but(field: usize, value: i32) -> Sample {
    let mut fields = CALM.fields();
    fields[field] = value;
    Sample::from_fields(fields)
}

/// Three samples whose numbers have one digit and many, signs and none; each field is 0 or near it once where
/// it may be.
fn three() -> [Sample; 3] {
    let lines = [
        [
            -1_234, 5_656, 13_862, 400, -2_310, 14_870, -1_712, 10_346, 1, 0,
        ],
        [0, 0, 60_000, 0, 0, 0, 0, 5_000, 0, 1],
        [
            20_000, -7, 6_000, -20, 30_000, -10_000, 10_000, 30_000, 1, 0,
        ],
    ];
    lines.map(Sample::from_fields)
}

/// The number that refuses a malformed text: what stands after a good header line is no part of it.
fn malformed(text: &[u8]) -> u8 {
    let has_header = text.starts_with(&text_of(&table_of(&[])));
    if has_header {
        24
    } else {
        23
    }
}

/// Each value of each field's range, one to a line: its record has it, a speed as the nearest float.
#[test]
fn every_value_in_range() {
    let mut exchange = Exchange::new();
    for (field, (low, high)) in RANGES.into_iter().enumerate() {
        let values: Vec<_> = (low..=high).collect();
        for values in values.chunks(2_600) {
            let list: Vec<_> = values.iter().map(|&v| calm_but(field, v)).collect();
            let file = exchange.accepted(&text_of(&table_of(&list)), true);
            for (place, s) in list.iter().enumerate() {
                let read = exchange.both.read_record(&file, place).unwrap();
                assert_eq!(read.sample.fields(), s.fields());
                let floats = [
                    read.record.along,
                    read.record.vertical,
                    read.record.airspeed,
                ];
                assert_eq!(floats, [s.along, s.vertical, s.airspeed].map(nearest_float));
                assert_eq!(i32::from(read.record.vs1), s.vs1);
            }
        }
    }
    exchange.done("texts of every value", &[0..=0]);
}

/// One beyond each end of each range, and farther, at each place.
#[test]
fn just_out_of_range() {
    let mut exchange = Exchange::new();
    let table = table_of(&three());
    for (field, (low, high)) in RANGES.into_iter().enumerate() {
        let number = 11 + field as u8;
        for more in [1, 2, 99, 100, 101, 10_000, 65_536 - 2, 1 << 31, 1 << 40] {
            for value in [i128::from(low) - more, i128::from(high) + more] {
                for line in 1..=3 {
                    let text = text_with(&table, line, field, &plain(field, value));
                    exchange.refused(&text, number, line - 1);
                }
            }
        }
        for end in [low, high] {
            for line in 1..=3 {
                let text = text_with(&table, line, field, &plain(field, end.into()));
                exchange.accepted(&text, true);
            }
        }
    }
    exchange.done("texts at the ends of the ranges", &[0..=0, 11..=20]);
}

/// Every set of fields quoted, in the header line and in a line.
#[test]
fn quotes_around_every_set_of_fields() {
    let mut exchange = Exchange::new();
    let table = table_of(&three());
    let file = exchange.accepted(&text_of(&table), true);
    for line in 0..=3 {
        for set in 1..1_024 {
            let mut table = table.clone();
            for field in (0..10).filter(|field| set >> field & 1 == 1) {
                table[line][field] = quoted(&table[line][field]);
            }
            assert_eq!(exchange.accepted(&text_of(&table), false), file);
        }
    }
    let all = table
        .iter()
        .map(|line| line.iter().map(|field| quoted(field)).collect());
    assert_eq!(exchange.accepted(&text_of(&all.collect()), false), file);
    exchange.done("texts with quotes", &[0..=0]);
}

/// What no field may be, whatever x it holds.
const NEVER: [&str; 5] = [
    // quotes: one, doubled, within others, with something before or after them
    r#""x|x"|""x|x""|""x""|"""x"""|"x""|""x"|"x" | "x"|"x"0|0"x"|"x"""|"x""0"|+"x"|-"x"|"x""""|'x'|\"x\""#,
    // a space, or what some take for one
    " x|x |\" x\"|\"x \"|\tx|x\t|\u{a0}x|x\u{a0}|\u{feff}x|\0x|x\0|x\x0b|\x0cx",
    // commas: one field more, or one in quotes
    ",x|x,|\",x\"|\"x,\"|\"x,0\"|x,0|0,x|\"\",x|x;|x,\"\"",
    // line ends: one line more, one in quotes, or another end
    "\r\nx|x\r\n|\"\r\nx\"|\"x\r\n\"|\"x\n\"|\"x\r\"|\rx|x\r|\nx|x\n|x\n\r|\r\r\nx|x\r\n\r\n",
    // nothing that x has
    "|\"\"|\"|\"\"\"|\"\"\"\"| |\" \"|\r\n|\"\r\n\"|-|+|.|\"-\"|\"+\"",
];

fn never_a_field(content: &str) -> Vec<String> {
    let forms = NEVER.iter().flat_map(|forms| forms.split('|'));
    let forms = forms.map(|form| form.replace('x', content));
    // and a part put in after the first byte, where that is not the last
    let (first, rest) = content.split_at(1);
    let parts = if rest.is_empty() {
        ""
    } else {
        "\"|\"\"| |,|\r\n|\n|\r|\0|;"
    };
    let within = parts.split_terminator('|');
    let within = within.map(|part| format!("{first}{part}{rest}"));
    forms.chain(within).collect()
}

/// Each field of the header line and of each line made malformed in each way.
#[test]
fn malformed_fields() {
    let mut exchange = Exchange::new();
    let table = table_of(&three());
    for (line, fields) in table.iter().enumerate() {
        for (field, content) in fields.iter().enumerate() {
            for bad in never_a_field(content) {
                let text = text_with(&table, line, field, &bad);
                exchange.refused(&text, malformed(&text), 0);
            }
        }
    }
    exchange.done("texts with a malformed field", &[23..=24]);
}

/// A sign before each of the ten, which may take it out of its range, and what is not a sign.
#[test]
fn signs() {
    let mut exchange = Exchange::new();
    for (field, (low, high)) in RANGES.into_iter().enumerate() {
        let is_in_range = |value| (low..=high).contains(&value);
        for size in [low, 0, 1, high].map(i32::abs) {
            let table = table_of(&[CALM; 3]);
            let digits = plain(field, size.into());
            for (sign, signed) in [("", size), ("+", size), ("-", -size)] {
                let want = if is_in_range(signed) {
                    let table = table_of(&[CALM, calm_but(field, signed), CALM]);
                    Ok(exchange.accepted(&text_of(&table), true))
                } else {
                    Err((11 + field as u8, 1))
                };
                let content = format!("{sign}{digits}");
                for content in [quoted(&content), content] {
                    let text = text_with(&table, 2, field, &content);
                    assert_eq!(exchange.import(&text), want);
                }
            }
            let forms = "++x|+-x|-+x|--x|+ x|- x|\u{2212}x|\u{2013}x|~x|+\0x|(x)|x+|x-|x +|x%|xkt|xe0|xE0|x_0|xf|x\u{660}";
            for form in forms.split('|') {
                let bad = form.replace('x', &digits);
                for bad in [quoted(&bad), bad, form.replace('x', &quoted(&digits))] {
                    exchange.refused(&text_with(&table, 2, field, &bad), 24, 0);
                }
            }
        }
    }
    let numbers = [0..=0, 13..=14, 16..=16, 18..=20, 24..=24];
    exchange.done("texts with signs", &numbers);
}

/// Zero in each form is plus zero, and is exported as 0.00 or 0.
#[test]
fn zeros() {
    let mut exchange = Exchange::new();
    for (field, (low, high)) in RANGES.into_iter().enumerate() {
        let table = table_of(&[CALM, calm_but(field, 0), CALM]);
        let is_in_range = (low..=high).contains(&0);
        for sign in ["", "+", "-"] {
            for zeros in [1, 2, 3, 20, 40, 5_000] {
                let content = "0".repeat(zeros) + if IS_SPEED[field] { ".00" } else { "" };
                let content = format!("{sign}{content}");
                for content in [quoted(&content), content] {
                    let text = text_with(&table, 2, field, &content);
                    if is_in_range {
                        let is_plain = content == table[2][field];
                        let file = exchange.accepted(&text, is_plain);
                        assert_eq!(file, exchange.accepted(&text_of(&table), true));
                        assert!(!file[8 + 24..][..8].contains(&0x80));
                    } else {
                        exchange.refused(&text, 11 + field as u8, 1);
                    }
                }
            }
        }
    }
    exchange.done("texts with a zero", &[0..=0, 13..=13, 18..=18]);
}

/// Leading zeros, any number of them, before each field.
#[test]
fn leading_zeros() {
    let mut exchange = Exchange::new();
    let table = table_of(&three());
    let file = exchange.accepted(&text_of(&table), true);
    for line in 1..=3 {
        for field in 0..10 {
            for zeros in (1..=70).chain([255, 256, 257, 1_000, 5_000, 65_536]) {
                let content = with_zeros(&table[line][field], zeros);
                assert_eq!(
                    exchange.accepted(&text_with(&table, line, field, &content), false),
                    file
                );
            }
        }
    }
    exchange.done("texts with leading zeros", &[0..=0]);
}

/// A whole number of hundredths, or of whole units, by its digits.
fn by_digits(field: usize, digits: &str) -> String {
    if IS_SPEED[field] {
        let digits = format!("{digits:0>3}");
        let (whole, decimals) = digits.split_at(digits.len() - 2);
        format!("{whole}.{decimals}")
    } else {
        digits.into()
    }
}

/// Numbers of many digits are out of range, and not malformed: also those that are in range by what is left
/// of them by a power of two, or of ten.
#[test]
fn many_digits() {
    let mut exchange = Exchange::new();
    let table = table_of(&three());
    let mut tried = Vec::new();
    for n in (7..=70).chain([127, 128, 255, 256, 257, 1_000, 4_999, 5_000, 5_001]) {
        tried.push("9".repeat(n));
        tried.push("1".to_owned() + &"0".repeat(n));
        tried.push("1".to_owned() + &"0".repeat(n) + "1");
    }
    for field in 0..10 {
        let number = 11 + field as u8;
        let (low, high) = RANGES[field];
        let powers = (17..=130).chain([191, 192, 193, 255, 256, 257, 511, 512, 1_024]);
        let beside =
            powers.flat_map(|power| [low, 0, 1, high].map(|more| beside_power(power, more)));
        let before: Vec<_> = (6..=40).map(|n| format!("1{high:0>n$}")).collect();
        for digits in tried.iter().cloned().chain(beside).chain(before) {
            for sign in ["", "+", "-"] {
                let content = sign.to_owned() + &by_digits(field, &digits);
                exchange.refused(&text_with(&table, 2, field, &content), number, 1);
            }
            let content = quoted(&with_zeros(&by_digits(field, &digits), 2));
            exchange.refused(&text_with(&table, 3, field, &content), number, 2);
        }
    }
    exchange.done("texts with numbers of many digits", &[11..=20]);
}

/// Two decimals for a speed and none for the rest: neither fewer nor more.
#[test]
fn decimals() {
    let mut exchange = Exchange::new();
    let table = table_of(&three());
    let of_speeds = "140|140.|140.1|140.100|140.1000|.10|+.10|-.10|.|140..10|140.1.0|140.10.|140,10|140.1 |140. 10|\
        140 .10|140.+10|140.-10|140.1e|1.4e02|140.1O|0x8c.00|1_40.00|140.10kt|inf|nan|NaN|infinity|-inf|140\u{b7}10|\
        140.\u{661}0|140:10|14010|1,400.10|140.10+|--140.10|140.10\u{0}";
    let of_whole =
        "1.|1.0|1.00|.1|0.|0.0|0.00|1e0|0x1|1_0|1 0|true|TRUE|on|one|1.e0|\u{661}|1,0|1+|1\u{0}";
    let long_decimals = format!("140.10{}", "0".repeat(5_000));
    let long_malformed = "1".repeat(5_000) + "x";
    for field in 0..10 {
        let tried = if IS_SPEED[field] { of_speeds } else { of_whole };
        let long = [&*long_decimals, &*long_malformed];
        for content in tried.split('|').chain(long) {
            for line in 1..=3 {
                for content in [content, &quoted(content)] {
                    exchange.refused(&text_with(&table, line, field, content), 24, 0);
                }
            }
        }
        // its own number with one decimal, with none and with three
        for line in (1..=3).filter(|_| IS_SPEED[field]) {
            let content = &table[line][field];
            let [one, none] = [1, 3].map(|fewer| content[..content.len() - fewer].to_owned());
            for content in [one, none, format!("{content}0")] {
                exchange.refused(&text_with(&table, line, field, &content), 24, 0);
            }
        }
    }
    exchange.done("texts with other decimals", &[24..=24]);
}

/// Blank lines, other line ends, an end that is missing, a field more or fewer, in each line.
#[test]
fn lines() {
    let mut exchange = Exchange::new();
    let table = table_of(&three());
    let lines: Vec<_> = table.iter().map(|line| line.join(",")).collect();
    let ended: Vec<_> = lines.iter().map(|line| line.clone() + "\r\n").collect();
    exchange.accepted(ended.concat().as_bytes(), true);
    let mut refused = |text: &[u8]| exchange.refused(text, malformed(text), 0);
    let ends =
        "|\n|\r|\n\r|\r\r\n|\r\n\n|\r\n\r|\r\n\r\n| \r\n|\r \n|,\r\n|\0\r\n|\\r\\n|\r\0\n|\x1a";
    let starts =
        "\r\n|\n|\r| |\t\r\n|,,,,,,,,,\r\n|\"\"\r\n| \r\n|#\r\n|\u{feff}|sep=,\r\n|\0|\x1a|\"\r\n\"|,";
    for line in 0..=3 {
        for end in ends.split('|') {
            let mut ended = ended.clone();
            ended[line] = lines[line].clone() + end;
            refused(ended.concat().as_bytes());
        }
        for start in starts.split('|') {
            let mut ended = ended.clone();
            ended[line].insert_str(0, start);
            refused(ended.concat().as_bytes());
        }
        for fields in (0..10).chain(11..=21) {
            let mut table = table.clone();
            let content = table[line].clone();
            table[line] = content.into_iter().cycle().take(fields).collect();
            refused(&text_of(&table));
        }
        for field in 0..10 {
            let mut table = table.clone();
            let content = table[line].remove(field);
            refused(&text_of(&table));
            table[line].extend([content.clone(), content]);
            refused(&text_of(&table));
        }
    }
    for after in "\r\n|\n|\r| |\0|\x1a|0|\"|,|\r\n\r\n".split('|') {
        refused((ended.concat() + after).as_bytes());
        // a last line without its end; two lines with something else between them
        let between = [&*ended[0], &*lines[1], after, &*lines[2]];
        refused(between.concat().as_bytes());
    }
    exchange.done("texts with other lines", &[0..=0, 23..=24]);
}

/// The header line: no text, wrong names, another order, another case, one line too few or too many.
#[test]
fn header_lines() {
    let mut exchange = Exchange::new();
    let table = table_of(&three());
    exchange.refused(b"", 23, 0);
    let header = text_of(&table[..1].to_vec());
    assert_eq!(exchange.accepted(&header, true), *b"WSR\x01\0\0\0\0");
    let quoted_header = table[0].iter().map(|name| quoted(name)).collect();
    assert_eq!(
        exchange.accepted(&text_of(&vec![quoted_header]), false),
        *b"WSR\x01\0\0\0\0"
    );
    for len in 0..header.len() {
        exchange.refused(&header[..len], 23, 0);
        exchange.refused(&header[len + 1..], 23, 0);
    }
    exchange.refused(&[&*header, &*header].concat(), 24, 0);
    exchange.refused(&text_of(&table[1..].to_vec()), 23, 0);
    exchange.refused(&text_of(&vec![table[1].clone(), table[0].clone()]), 23, 0);
    for field in 0..10 {
        let name = NAMES[field];
        let forms = "xs|the x|x (kt)|X|0|1|0.00|x1|x.";
        let forms = forms.split('|').map(|form| form.replace('x', name));
        let spaces = ["  ", "_", "-", "\u{a0}", "\t", ""].map(|space| name.replace(' ', space));
        let cut = [&name[1..], &name[..name.len() - 1]].map(String::from);
        let others = NAMES.into_iter().map(String::from);
        let cases = [
            name.to_uppercase(),
            name.to_lowercase(),
            name.replace('-', " "),
        ];
        let tried = forms.chain(spaces).chain(cut).chain(others).chain(cases);
        for other in tried.filter(|other| other != name) {
            for other in [quoted(&other), other] {
                exchange.refused(&text_with(&table, 0, field, &other), 23, 0);
            }
        }
        for other in 0..field {
            let mut table = table.clone();
            table[0].swap(field, other);
            exchange.refused(&text_of(&table), 23, 0);
        }
        // each letter in the other case
        for at in 0..name.len() {
            let mut other = name.as_bytes().to_vec();
            other[at] ^= 0x20;
            let other = String::from_utf8(other).unwrap();
            exchange.refused(&text_with(&table, 0, field, &other), 23, 0);
        }
    }
    exchange.done("texts with other header lines", &[0..=0, 23..=24]);
}

/// Two small texts, a plain one and one in another form: each byte replaced by each other one, removed, doubled,
/// swapped with the next, each byte put in at each place; cut at each length from either end.
#[test]
fn byte_by_byte() {
    let mut exchange = Exchange::new();
    let table = table_of(&three()[..2]);
    let mut other = table.clone();
    for (line, fields) in other.iter_mut().enumerate() {
        for (field, content) in fields.iter_mut().enumerate() {
            if line > 0 && field % 3 == 0 && !content.starts_with('-') {
                content.insert(0, '+');
            }
            if (line + field) % 2 == 0 {
                *content = quoted(content);
            }
        }
    }
    for text in [text_of(&table), text_of(&other)] {
        exchange.import(&text).unwrap();
        let mut edited = text.clone();
        for at in 0..text.len() {
            for byte in 0..=255 {
                edited[at] = byte;
                exchange.import(&edited).ok();
            }
            edited[at] = text[at];
            let (before, after) = text.split_at(at);
            exchange.import(&[before, &after[1..]].concat()).ok();
            exchange.import(&[before, &after[..1], after].concat()).ok();
            if after.len() > 1 {
                exchange
                    .import(&[before, &[after[1], after[0]], &after[2..]].concat())
                    .ok();
                exchange.import(&[before, &after[2..]].concat()).ok();
            }
            // what lies past the end of a text is not read
            exchange.import(before).ok();
            exchange.import(after).ok();
        }
        let mut longer = [&[0], &*text].concat();
        for at in 0..longer.len() {
            for byte in 0..=255 {
                longer[at] = byte;
                exchange.import(&longer).ok();
            }
            if at + 1 < longer.len() {
                longer.swap(at, at + 1);
            }
        }
    }
    exchange.done("texts with one edit", &[0..=0, 11..=20, 23..=24]);
}

/// Texts in every form, damaged at random, or with some numbers out of range.
#[test]
fn damaged_texts() {
    let mut exchange = Exchange::new();
    let mut rng = Rng::new(311);
    for round in 0..60_000 {
        let most = rng.pick(&[1, 3, 12, 40]);
        let n = rng.within(0, most);
        let mut table = table_of(&any(&mut rng, n));
        for _ in 0..if round % 4 == 0 && n > 0 {
            rng.within(1, 3)
        } else {
            0
        } {
            let (line, field) = (rng.within(1, n) as usize, rng.within(0, 9) as usize);
            let digits = rng.within(1, 30) as u32;
            table[line][field] = plain(
                field,
                (rng.draw() as i128) * (rng.draw() as i128) >> (128 - 4 * digits).min(127),
            );
        }
        let one_in = rng.pick(&[2, 8, 1_000]);
        restyle(&mut rng, &mut table, one_in);
        let mut text = text_of(&table);
        if round % 3 > 0 {
            damage(&mut rng, &mut text);
        }
        if let Ok(file) = exchange.import(&text) {
            exchange.export(&file).unwrap();
        }
    }
    exchange.done("damaged texts", &[0..=0, 11..=20, 23..=24]);
}

/// Bytes of no sense, and bytes that only a text has, after a good header line or not.
#[test]
fn random_bytes() {
    let mut exchange = Exchange::new();
    let mut rng = Rng::new(312);
    let header = text_of(&table_of(&[]));
    for round in 0..20_000 {
        let n = rng.within(0, 60);
        let random: Vec<u8> = (0..n)
            .map(|_| {
                if round % 2 == 0 {
                    rng.pick(BYTES)
                } else {
                    rng.draw() as u8
                }
            })
            .collect();
        exchange.refused(&random, 23, 0);
        let after = exchange.import(&[&*header, &*random].concat());
        assert_eq!(after.is_ok(), random.is_empty());
    }
    exchange.done("random texts", &[0..=0, 23..=24]);
}
