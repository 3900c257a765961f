//! The proved run files beside the reference: floats, writers and whole runs, of good and damaged bytes.

use std::collections::BTreeMap;
use std::ops::RangeInclusive;
use windshear::Outcome;
use windshear_tests::both::Both;
use windshear_tests::examples::examples;
use windshear_tests::files::*;
use windshear_tests::gen::*;
use windshear_tests::library::{converted, refused};
use windshear_tests::reference::{self, read_record, Record, VERSIONS};

/// Every pattern that there is.
#[test]
#[ignore = "takes 23 minutes"]
fn hundredths_of_every_pattern() {
    let both = Both::new();
    for bits in 0..=u32::MAX {
        both.hundredths(bits);
    }
    both.done();
}

/// Only odd eighths of a knot are ties; all of them to beyond the cut, and their neighbours. None is exact.
#[test]
fn ties_go_away_from_zero() {
    let both = Both::new();
    for eighths in (1..=100_001).step_by(2) {
        for sign in [1, -1] {
            let bits = ((sign * eighths) as f32 / 8.0).to_bits();
            let away = (25 * eighths + 1) / 2;
            let signed = |size: i32| Some(converted((sign * size).into(), false));
            assert_eq!(both.hundredths(bits), signed(away));
            assert_eq!(both.hundredths(bits + 1), signed(away));
            assert_eq!(both.hundredths(bits - 1), signed(away - 1));
        }
    }
    both.done();
}

/// Calls of the reference and the library, how often each number came, and how many of the answers that
/// runs gave have each alert. What is refused has no bytes.
#[derive(Default)]
struct Tally {
    both: Both,
    came: BTreeMap<u16, u64>,
    alerts: [u64; 3],
}

impl Tally {
    fn count(&mut self, number: u16) {
        *self.came.entry(number).or_default() += 1;
    }

    fn header(&mut self, version: u32, count: u32, len: usize) -> Vec<u8> {
        let written = self.both.write_header(version, count, len);
        self.count(written.err().unwrap_or(0).into());
        written.map_or(Vec::new(), Vec::from)
    }

    fn record(&mut self, version: u32, r: &Record, len: usize) -> (u16, Vec<u8>) {
        let (number, bytes) = match self.both.write_record(version, r, len) {
            Ok(bytes) => (0, bytes),
            Err(number) => (number.into(), Vec::new()),
        };
        self.count(number);
        (number, bytes)
    }

    /// One run with an answer buffer so long.
    fn run(&mut self, file: &[u8], len: usize) -> (Outcome, Vec<u8>) {
        let (outcome, bytes) = match self.both.run(file, len) {
            Ok(bytes) => (Outcome::default(), bytes),
            Err((number, place)) => (refused(number, place as usize), Vec::new()),
        };
        self.count(outcome.refusal);
        for answer in bytes.chunks(10) {
            self.alerts[usize::from(answer[0])] += 1;
        }
        (outcome, bytes)
    }

    /// A run with the right answer buffer, after others with wrong ones.
    fn runs(&mut self, file: &[u8]) -> Outcome {
        let right = right_len(file);
        for wrong in [0, right.saturating_sub(1), right + 1, right + 10] {
            self.run(file, wrong);
        }
        self.run(file, right).0
    }

    /// Prints the line, and tests that exactly these numbers came.
    fn done(&self, what: &str, numbers: &[RangeInclusive<u16>]) {
        let Tally { both, came, alerts } = self;
        let (compared, calls) = (both.compared(), came.values().sum::<u64>());
        println!("compared {compared} answers and buffers of {calls} {what}, by number {came:?}, by alert {alerts:?}");
        assert!(came.keys().copied().eq(numbers.iter().cloned().flatten()));
    }

    /// Tests that at least so many answers are amber, and red.
    fn lit(&self, least: u64) {
        let [_, amber, red] = self.alerts;
        assert!(amber >= least && red >= least);
    }
}

/// Every list, its accepted samples written by the library and read back by a run.
#[test]
fn lists_written_and_run() {
    let mut rng = Rng::new(51);
    let (mut written, mut run) = (Tally::default(), Tally::default());
    for (name, list) in all_lists() {
        let mut records = Vec::new();
        for s in &list {
            let record = record_of(s, within_half(&mut rng));
            let (number, bytes) = written.record(1, &record, 24);
            assert_eq!(number, reference::refusal(s).into(), "{name}: {s:?}");
            if number == 0 {
                assert_eq!(record.sample(), Ok(*s));
                records.extend(bytes);
            }
        }
        let count = records.len() / 24;
        let file = [written.header(1, count as u32, 8), records].concat();
        assert_eq!(run.run(&file, 10 * count).0, Outcome::default(), "{name}");
    }
    written.done("headers and records written", &[0..=0, 11..=20]);
    run.done("files read back", &[0..=0]);
    run.lit(150_000);
}

/// 02, A6: 3, then 5, then 7, in both versions and in none.
#[test]
fn headers_written() {
    let mut tally = Tally::default();
    let large = [65_535, 65_536, 65_537, 68_136, 1 << 24, 1 << 31, u32::MAX];
    for version in [
        0,
        1,
        2,
        3,
        255,
        256,
        65_535,
        65_536,
        65_537,
        65_538,
        1 << 31,
        u32::MAX,
    ] {
        let is_known = version == 1 || version == 2;
        for count in (0..=2_700)
            .step_by(if is_known { 1 } else { 100 })
            .chain(large)
        {
            for len in [0, 1, 6, 7, 8, 9, 10, 16, 24, 26, 32] {
                let header = tally.header(version, count, len);
                assert!(header.is_empty() || header[3] == version as u8 && is_known);
            }
        }
    }
    tally.done("headers written", &[0..=0, 3..=3, 5..=5, 7..=7]);
}

/// Each field at each of its values, written with buffers of all lengths, and run at every place of a file.
#[test]
fn every_value_in_every_field() {
    let (mut written, mut run) = (Tally::default(), Tally::default());
    for field in 0..10 {
        for value in field_values(field) {
            let record = calm_with(field, value);
            let number = written.record(1, &record, 24).0;
            assert!(number == 0 || number == 11 + field as u16);
            for len in (0..=30).chain([48, 240]) {
                written.record(1, &record, len);
            }
            for place in 0..3 {
                let mut file = calm_file(3);
                place_mut(&mut file, place).copy_from_slice(&record.bytes());
                let place = if number == 0 { 0 } else { place };
                assert_eq!(run.runs(&file), refused(number, place));
            }
        }
    }
    written.done("records written", &[0..=0, 7..=7, 11..=20]);
    run.done("files with such a record", &[0..=0, 7..=7, 11..=20]);
}

/// Every set of bad fields in one record, with other bad records after it or not.
#[test]
fn first_bad_record_and_its_first_number() {
    let (mut rng, bad) = (Rng::new(52), bad_field_values());
    let mut tally = Tally::default();
    for set in (1..1_024).cycle().take(12 * 1_023) {
        let count = rng.within(1, 12) as usize;
        let place = rng.within(0, count as i32 - 1) as usize;
        let mut file = random_file(&mut rng, count as i32);
        spoil(&mut rng, &bad, place_mut(&mut file, place), set);
        let record = read_record(place_mut(&mut file, place));
        for later in place + 1..count {
            let set = rng.pick(&[0, 0, 1_023]) & rng.draw() as u32;
            spoil(&mut rng, &bad, place_mut(&mut file, later), set);
        }
        let number = 11 + set.trailing_zeros() as u16;
        assert_eq!(tally.runs(&file), refused(number, place));
        assert_eq!(tally.record(1, &record, 24).0, number);
        tally.record(1, &record, 23);
    }
    let long = random_file(&mut rng, 2_600);
    assert_eq!(tally.runs(&long), Outcome::default());
    for place in [0, 1, 255, 256, 1_300, 2_598, 2_599] {
        for field in 0..10 {
            let mut file = long.clone();
            for later in [place, 2_599] {
                spoil(&mut rng, &bad, place_mut(&mut file, later), 1 << field);
            }
            assert_eq!(tally.runs(&file), refused(11 + field as u16, place));
        }
    }
    tally.done(
        "files and records with bad fields",
        &[0..=0, 7..=7, 11..=20],
    );
}

/// Lengths around the right one, every value of every header byte, every set of defects in their order.
#[test]
fn headers_and_lengths() {
    let mut tally = Tally::default();
    for count in [0, 1, 2, 3, 2_599, 2_600, 2_601] {
        let mut long = calm_file(count);
        let right = long.len();
        long.resize(right + 50, 0);
        for len in (0..=8).chain(right.saturating_sub(50)..=right + 50) {
            tally.runs(&long[..len]);
        }
    }
    for count in [0, 1, 3] {
        for at in 0..8 {
            for byte in 0..=255 {
                let mut file = calm_file(count);
                file[at] = byte;
                tally.runs(&file);
            }
        }
    }
    for set in 0..128_u32 {
        for (variant, other) in [1, 2, 128, 255].into_iter().enumerate() {
            let has = |k: u32| set >> k & 1 == 1;
            let mut file = calm_file(if has(3) { 2_601 } else { 3 });
            let mut spoiled = |k, at: usize| file[at] ^= if has(k) { other } else { 0 };
            spoiled(0, variant.min(2));
            spoiled(1, 3 + variant % 2);
            spoiled(2, 5);
            spoiled(6, 8 + 24 + 23);
            if has(4) {
                file.push(other);
            }
            let len = right_len(&file) + usize::from(has(5)) * variant.max(1);
            // The last defect is of the second record: a deselect beyond 1, or not.
            let numbers = [2, 3, 4, 5, 6, 7, if other > 1 { 20 } else { 0 }, 0];
            let number: u16 = numbers[set.trailing_zeros().min(7) as usize];
            let outcome = refused(number, usize::from(number == 20));
            assert_eq!(tally.run(&file, len).0, outcome, "{set:b} {other}");
        }
    }
    tally.done("files with other headers and lengths", &[0..=7, 20..=20]);
}

/// Bytes flipped, files cut short or long, answer buffers of another length, at random.
#[test]
fn damaged_files() {
    let mut rng = Rng::new(53);
    let mut tally = Tally::default();
    let kept = examples().map(|(_, file)| file);
    for _ in 0..40_000 {
        let file = damaged_file(&mut rng, &kept);
        let len = some_len(&mut rng, &file);
        tally.run(&file, len);
        let raw: [u8; 26] = std::array::from_fn(|_| rng.draw() as u8);
        let version = rng.pick(&VERSIONS);
        let record = read_record(&raw[..version.record]);
        tally.record(version.number.into(), &record, version.record);
    }
    tally.done("damaged files and random records", &[0..=7, 11..=21]);
    tally.lit(20_000);
}

/// 01, "The six windows": the test rows of 000 through whole runs, each exposure flat, made by the
/// vertical wind, by the along wind, or by both: exactly the average or the next above it.
#[test]
fn test_rows() {
    let mut tally = Tally::default();
    for ((average, exposed, limits), (sign, alert)) in TEST_ROWS
        .into_iter()
        .flat_map(|row| WAYS.map(|way| (row, way)))
    {
        // A change of a hundredth of a knot is a shear of 1,852,000,000 / 1,765,197 as held.
        let due = average as u64 * 1_765_197;
        let whole = due.div_ceil(1_852_000_000);
        for change in [0, whole / 2, whole - 1, whole] {
            for airspeed in [6_000, 10_000, 14_000, 20_000, 30_000] {
                let rest = due.saturating_sub(change * 1_852_000_000);
                let sinking = (rest * airspeed).div_ceil(100_000 * 1_765_197);
                let list = series(20 + exposed + 70, |i, s| {
                    s.along = sign * change as i32 * (i - 19).clamp(0, exposed);
                    if (20..20 + exposed).contains(&i) {
                        s.vertical = -sign * sinking as i32;
                        s.airspeed = airspeed as i32;
                    }
                });
                let (outcome, answers) = tally.run(&file_of_samples(&list), 10 * list.len());
                let alerts: Vec<u8> = answers.iter().step_by(10).copied().collect();
                let held = i32::from_le_bytes(answers[10 * 20 + 4..][..4].try_into().unwrap());
                assert_eq!(outcome, Outcome::default());
                assert!((average..average + 1_050).contains(&(sign * held)));
                assert!(
                    meets_row(&alerts, 20, alert, limits),
                    "{average} {sign} {change} {airspeed}"
                );
            }
        }
    }
    tally.done("files of the test rows", &[0..=0]);
    tally.lit(5_000);
}
