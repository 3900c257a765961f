//! The refusals of an import and an export in their order, each over the whole text or file before the next,
//! with their places, in short and long texts.

use windshear_tests::csv::{Refusal, IS_SPEED};
use windshear_tests::exchange::Exchange;
use windshear_tests::files::*;
use windshear_tests::gen::*;
use windshear_tests::reference::{read_record, RANGES};
use windshear_tests::texts::*;

/// A number that is out of a field's range: by one, by far, or by thousands of digits.
fn bad_number(rng: &mut Rng, field: usize) -> String {
    let (low, high) = RANGES[field];
    let digits = "7".repeat(rng.within(9, 5_000) as usize);
    let decimals = if IS_SPEED[field] { ".00" } else { "" };
    match rng.within(0, 5) {
        0 => plain(field, i128::from(low) - 1),
        1 => plain(field, i128::from(high) + 1),
        2 => plain(field, i128::from(low) - 1 - i128::from(rng.draw())),
        3 => plain(field, i128::from(high) + 1 + i128::from(rng.draw())),
        4 => format!("{digits}{decimals}"),
        _ => quoted(&format!("-{digits}{decimals}")),
    }
}

/// Makes the fields of a set bad in a line.
fn spoil_line(rng: &mut Rng, line: &mut [String], set: u32) {
    for field in (0..10).filter(|field| set >> field & 1 == 1) {
        line[field] = bad_number(rng, field);
    }
}

/// Every set of bad fields in one line, with other bad lines after it or not.
#[test]
fn first_bad_line_and_its_first_number() {
    let mut exchange = Exchange::new();
    let mut rng = Rng::new(321);
    for set in (1..1_024_u32).cycle().take(6 * 1_023) {
        let n = rng.within(1, 12);
        let place = rng.within(0, n - 1) as usize;
        let mut table = table_of(&any(&mut rng, n));
        spoil_line(&mut rng, &mut table[1 + place], set);
        for line in &mut table[2 + place..] {
            let set = rng.pick(&[0, 0, 1_023]) & rng.draw() as u32;
            spoil_line(&mut rng, line, set);
        }
        let number = 11 + set.trailing_zeros() as u8;
        exchange.refused(&text_of(&table), number, place);
    }
    exchange.done("texts with bad lines", &[11..=20]);
}

/// Every set of defects of a text and its lent buffer: the line that is malformed and the one that is out of
/// range are the first, the last, or between.
#[test]
fn every_set_of_defects() {
    let exchange = Exchange::new();
    let both = &exchange.both;
    let mut rng = Rng::new(322);
    let (short, long) = (table_of(&[CALM; 3]), table_of(&[CALM; 2_601]));
    let malformed: Vec<_> = "|x|1.0|\"|\"1|1\"\"|- 1|\r\n|1.000|1\n"
        .split('|')
        .collect();
    for set in 0..32_u32 {
        let has = |defect: &usize| set >> defect & 1 == 1;
        for variant in 0..if has(&3) { 27 } else { 270 } {
            let mut table = if has(&3) { &long } else { &short }.clone();
            let last = table.len() - 1;
            let lines = [1, last.div_ceil(2), last];
            let (bad_line, malformed_line) = (lines[variant % 3], lines[variant / 3 % 3]);
            let [field, other, name] = [(); 3].map(|()| rng.within(0, 9) as usize);
            if has(&2) {
                table[bad_line][field] = bad_number(&mut rng, field);
            }
            if has(&1) {
                table[malformed_line][other] = rng.pick(&malformed).into();
            }
            if has(&0) {
                table[0][name] = rng.pick(&malformed).into();
            }
            let right = 8 + 24 * last;
            let wrong = rng.pick(&[0, 8, right - 1, right + 1, right + 24, right - 24]);
            let numbers = [23, 24, 11 + field as u8, 5, 7];
            let refused =
                |defect: usize| (numbers[defect], if defect == 2 { bad_line - 1 } else { 0 });
            let first = |defects: usize| {
                (0..defects)
                    .find(has)
                    .map_or(Ok(right), |d| Err(refused(d)))
            };
            let text = text_of(&table);
            let file = both.import(&text, if has(&4) { wrong } else { right });
            assert_eq!(file.map(|file| file.len()), first(5), "{set:b} {variant}");
            assert_eq!(both.import_length(&text), first(4), "{set:b} {variant}");
        }
    }
    both.done();
}

/// The header line, so many good lines, another line, and so many good ones.
fn long_text(before: usize, line: &str, after: usize) -> Vec<u8> {
    const GOOD: &str = "0.00,0.00,60.00,0,0,0,0,50.00,0,0\r\n";
    let header = text_of(&table_of(&[]));
    [
        &*header,
        GOOD.repeat(before).as_bytes(),
        line.as_bytes(),
        GOOD.repeat(after).as_bytes(),
    ]
    .concat()
}

/// The count: 2,600 lines are accepted; more are not, nor those whose count is small by what is left of it by
/// a power of two.
#[test]
fn counts() {
    let mut exchange = Exchange::new();
    for n in [0, 1, 2, 255, 256, 257, 2_598, 2_599, 2_600] {
        let file = exchange.accepted(&long_text(n, "", 0), true);
        assert_eq!(file.len(), 8 + 24 * n);
        assert_eq!(
            file[..8],
            [b'W', b'S', b'R', 1, 0, 0, n as u8, (n >> 8) as u8]
        );
    }
    for n in [
        2_601,
        2_602,
        5_200,
        32_768,
        65_535,
        65_536,
        65_537,
        65_536 + 2_600,
        65_536 + 2_601,
        131_072,
    ] {
        exchange.refused(&long_text(n, "", 0), 5, 0);
    }
    exchange.done("texts of many lines", &[0..=0, 5..=5]);
}

/// In long texts a line that is malformed goes before one that is out of range, and both before the count. The
/// place may be above 2,600, and above 65,535.
#[test]
fn places_in_long_texts() {
    let exchange = Exchange::new();
    let both = &exchange.both;
    let refused = |text: &[u8], refusal: Refusal| {
        assert_eq!(both.import_length(text), Err(refusal));
        assert_eq!(both.import(text, 8), Err(refusal));
    };
    let mut rng = Rng::new(323);
    let places = [
        0, 1, 255, 256, 2_599, 2_600, 2_601, 32_767, 32_768, 65_535, 65_536, 65_537, 69_998,
    ];
    let calm = table_of(&[CALM]).remove(1);
    let malformed = format!("{},0\r\n", calm.join(","));
    for (i, place) in places.into_iter().enumerate() {
        let field = i % 10;
        let mut line = calm.clone();
        spoil_line(&mut rng, &mut line, 1 << field);
        let bad = line.join(",") + "\r\n";
        let number = 11 + field as u8;
        let mut text = long_text(place, &bad, 69_999 - place);
        refused(&text, (number, place));
        // a later bad line counts for nothing
        refused(&long_text(place, &bad.repeat(2), 3), (number, place));
        // a malformed one at the end, at once after it, or before it
        text.extend(malformed.bytes());
        refused(&text, (24, 0));
        let [after, before] = [[&*bad, &*malformed], [&*malformed, &*bad]].map(|two| two.concat());
        refused(&long_text(place, &after, 1), (24, 0));
        refused(&long_text(place, &before, 1), (24, 0));
        // the last line's end is cut
        text.truncate(text.len() - malformed.len() - 1);
        refused(&text, (24, 0));
        text[0] ^= 0x20;
        refused(&text, (23, 0));
    }
    refused(&long_text(70_000, &malformed, 0), (24, 0));
    refused(&long_text(0, &malformed, 70_000), (24, 0));
    both.done();
}

/// Every set of defects of a run file and its lent buffer: here 11 to 20 go before 7.
#[test]
fn every_set_of_defects_of_a_file() {
    let exchange = Exchange::new();
    let both = &exchange.both;
    let mut rng = Rng::new(324);
    let bad = bad_field_values();
    for set in (0..128_u32).cycle().take(128 * 12) {
        let has = |defect: &usize| set >> defect & 1 == 1;
        let mut file = calm_file(if has(&3) { 2_601 } else { 3 });
        let right = both.export_length(&calm_file(3)).unwrap();
        let mut spoiled = |defect, at: usize| {
            if has(&defect) {
                file[at] ^= rng.within(1, 255) as u8;
            }
        };
        spoiled(0, set as usize % 3);
        spoiled(1, 3 + set as usize / 3 % 2);
        spoiled(2, 5);
        let (place, field) = (rng.within(0, 2) as usize, rng.within(0, 9) as usize);
        if has(&5) {
            spoil(&mut rng, &bad, place_mut(&mut file, place), 1 << field);
        }
        if has(&4) {
            let len = file.len() + rng.pick(&[1, 24]);
            file.resize(len, 0);
        }
        let wrong = rng.pick(&[0, 1, right - 1, right + 1]);
        let numbers = [2, 3, 4, 5, 6, 11 + field as u8, 7];
        let refused = |defect: usize| (numbers[defect], if defect == 5 { place } else { 0 });
        let first = |defects: usize| {
            (0..defects)
                .find(has)
                .map_or(Ok(right), |d| Err(refused(d)))
        };
        let text = both.export(&file, if has(&6) { wrong } else { right });
        assert_eq!(text.map(|text| text.len()), first(7), "{set:b}");
        assert_eq!(both.export_length(&file), first(6), "{set:b}");
    }
    both.done();
}

/// Files of every length around the right one, and every value of every header byte.
#[test]
fn headers_and_lengths_of_files() {
    let mut exchange = Exchange::new();
    for count in [0, 1, 2, 2_600, 2_601] {
        let mut long = calm_file(count);
        let right = long.len();
        long.resize(right + 30, 0);
        for len in (0..=8).chain(right.saturating_sub(30)..=right + 30) {
            exchange.export(&long[..len]).ok();
        }
    }
    for count in [0, 1, 3] {
        for at in 0..8 {
            for byte in 0..=255 {
                let mut file = calm_file(count);
                file[at] = byte;
                exchange.export(&file).ok();
            }
        }
    }
    exchange.done("files with other headers and lengths", &[0..=6]);
}

/// Each field at each of its values, at every place of a file; every set of bad fields in one record, with
/// other bad records after it or not.
#[test]
fn records_of_files() {
    let mut exchange = Exchange::new();
    for field in 0..10 {
        for value in field_values(field) {
            for place in 0..3 {
                let mut file = calm_file(3);
                put(place_mut(&mut file, place), field, value);
                let is_good = read_record(place_mut(&mut file, place)).sample().is_ok();
                let want = if is_good {
                    None
                } else {
                    Some((11 + field as u8, place))
                };
                assert_eq!(exchange.export(&file).err(), want);
            }
        }
    }
    let (mut rng, bad) = (Rng::new(325), bad_field_values());
    for set in (1..1_024_u32).cycle().take(4 * 1_023) {
        let n = rng.within(1, 12) as usize;
        let place = rng.within(0, n as i32 - 1) as usize;
        let mut file = random_file(&mut rng, n as i32);
        spoil(&mut rng, &bad, place_mut(&mut file, place), set);
        for later in place + 1..n {
            let set = rng.pick(&[0, 0, 1_023]) & rng.draw() as u32;
            spoil(&mut rng, &bad, place_mut(&mut file, later), set);
        }
        let number = 11 + set.trailing_zeros() as u8;
        assert_eq!(exchange.export(&file), Err((number, place)));
    }
    let long = random_file(&mut rng, 2_600);
    for place in [0, 1, 255, 256, 1_300, 2_598, 2_599] {
        for field in 0..10 {
            let mut file = long.clone();
            spoil(&mut rng, &bad, place_mut(&mut file, place), 1 << field);
            assert_eq!(exchange.export(&file), Err((11 + field as u8, place)));
        }
    }
    exchange.done("files with bad records", &[0..=0, 11..=20]);
}

/// Run files damaged at random.
#[test]
fn damaged_files() {
    let mut exchange = Exchange::new();
    let mut rng = Rng::new(326);
    let given = [calm_file(2_600), calm_file(0), random_file(&mut rng, 300)];
    for _ in 0..30_000 {
        let file = damaged_file(&mut rng, &given);
        if let Ok(text) = exchange.export(&file) {
            exchange.import(&text).unwrap();
        }
    }
    exchange.done("damaged files", &[0..=6, 11..=20]);
}
