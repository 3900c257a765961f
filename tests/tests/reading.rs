//! Run files read back through the library, beside the reference: a file's own test, the record at
//! a place with its sample and whether it was exact, and both round trips, of good and damaged bytes.

use std::collections::BTreeMap;
use std::ops::RangeInclusive;
use windshear::refusal::*;
use windshear::{Alert, FileTest, State};
use windshear_tests::both::Both;
use windshear_tests::examples::examples;
use windshear_tests::files::*;
use windshear_tests::gen::*;
use windshear_tests::library::{accepted_file, refused_file, sent, sent_record};
use windshear_tests::reference::{read_record, Reading, Record, Version, VERSIONS};

#[path = "../../bindings/rust/examples/offer.rs"]
mod offer;

/// Places beyond every file's count, with those at which 24 or 26 × place, or 8 more, passes the end of
/// the numbers and comes near 0.
fn far_places() -> Vec<usize> {
    let most = usize::MAX;
    let wraps = [24, 26, 13, 8, 3]
        .into_iter()
        .flat_map(|n| [most / n, most / n + 1]);
    let bits = [1 << 16, (1 << 16) + 1, 1 << 32, 1 << 61, 1 << 63];
    [2_500, 2_600, 2_601, 65_535, most - 1, most]
        .into_iter()
        .chain(wraps)
        .chain(bits)
        .collect()
}

/// Calls of the reference and the library; how often a record was found, an exact one, a place was not
/// there, and each number came, for a place and for a whole file.
#[derive(Default)]
struct Tally {
    both: Both,
    found: u64,
    exact: u64,
    no_place: u64,
    came: BTreeMap<u8, u64>,
    tested: BTreeMap<u16, u64>,
}

impl Tally {
    /// The record at a place; where it is found, it is written as it was read, and what was written is read again.
    fn read(&mut self, file: &[u8], place: usize) -> Result<Record, Option<u8>> {
        match self.both.read_record(file, place) {
            Ok(Reading { record, exact, .. }) => {
                self.found += 1;
                self.exact += u64::from(exact);
                let Version {
                    number,
                    record: len,
                    ..
                } = *version_of(file);
                let bytes = self.both.write_record(number.into(), &record, len).unwrap();
                assert_eq!(bytes, file[8 + len * place..][..len]);
                Ok(record)
            }
            Err(number) => {
                match number {
                    Some(number) => *self.came.entry(number).or_default() += 1,
                    None => self.no_place += 1,
                }
                Err(number)
            }
        }
    }

    fn test(&mut self, file: &[u8]) -> FileTest {
        let test = self.both.test_file(file);
        *self.tested.entry(test.refusal).or_default() += 1;
        test
    }

    /// A file's own test, every place of it, those around its count, and those far beyond.
    fn whole(&mut self, file: &[u8]) -> FileTest {
        let test = self.test(file);
        let (count, bad) = (usize::from(test.count), usize::from(test.place));
        for place in (0..right_len(file) / 10 + 2).chain(far_places()) {
            let read = self.read(file, place);
            match test.refusal {
                0 => assert_eq!(read.is_ok(), place < count),
                number @ 1..=6 => assert_eq!(read, Err(Some(number as u8))),
                // 21 is of two records, and each of them is read
                21 if place == bad => assert!(read.is_ok()),
                _ if place < bad => assert!(read.is_ok()),
                number if place == bad => assert_eq!(read, Err(Some(number as u8))),
                _ => (),
            }
        }
        test
    }

    /// Prints the line, and tests that exactly these numbers came, with records and missing places.
    fn done(&self, what: &str, numbers: &[RangeInclusive<u8>]) {
        let (compared, found, no_place) = (self.both.compared(), self.found, self.no_place);
        let (exact, rounded) = (self.exact, found - self.exact);
        println!("compared {compared} records, samples, bytes and numbers of {what}: {exact} exact records, {rounded} rounded ones, {no_place} places not there, by number {:?}, whole files {:?}", self.came, self.tested);
        assert!(found > 0 && no_place > 0);
        let numbers = || numbers.iter().cloned().flatten();
        assert!(self.came.keys().copied().eq(numbers()));
        let good = self.tested.get(&0).is_some();
        let tested = self.tested.keys().copied().filter(|&number| number != 0);
        assert!(good && tested.eq(numbers().map(u16::from)));
    }

    /// Tests that at least so many records were exact, and rounded.
    fn both_kinds(&self, least: u64) {
        assert!(self.exact >= least && self.found - self.exact >= least);
    }
}

/// What a version 1 file of so many good records is answered.
fn accepted(count: usize) -> FileTest {
    accepted_file(&VERSIONS[0], count)
}

/// A record written by the library at a place of a file of calm ones, whose header it wrote too.
/// Gives back the file; where the record is refused, its bytes are there all the same.
fn written(both: &Both, record: &Record, count: usize, place: usize) -> Vec<u8> {
    let mut file = both.write_header(1, count as u32, 8).unwrap().to_vec();
    for i in 0..count {
        let calm = record_of(&CALM, 0.0);
        let record = if i == place { record } else { &calm };
        file.extend(
            both.write_record(1, record, 24)
                .unwrap_or(record.bytes().into()),
        );
    }
    file
}

/// The numbers of the ten fields by name.
const BY_FIELD: [u16; 10] = [
    ALONG, VERTICAL, AIRSPEED, HEIGHT, PITCH, STALL, CLIMB, VS1, MODE, DESELECT,
];

/// Each field at each of its values, the ends of every range and every kind of float among them:
/// written at each place of a file, and read back bit for bit.
#[test]
fn every_value_in_every_field() {
    let mut tally = Tally::default();
    for (field, named) in BY_FIELD.into_iter().enumerate() {
        for value in field_values(field) {
            let record = calm_with(field, value);
            for place in 0..3 {
                let file = written(&tally.both, &record, 3, place);
                let number = match tally.read(&file, place) {
                    Ok(read) => {
                        assert_eq!(read, record);
                        0
                    }
                    Err(number) => number.unwrap(),
                };
                assert!(number == 0 || u16::from(number) == named);
                let test = match number {
                    0 => accepted(3),
                    _ => refused_file(number, place),
                };
                assert_eq!(tally.whole(&file), test);
            }
        }
    }
    tally.done("every value in every field", &[11..=20]);
    tally.both_kinds(1_000);
}

/// All ten fields at once at good values, the ends of their ranges among them; now and then one bad.
#[test]
fn extremes_together() {
    let (mut rng, mut tally) = (Rng::new(63), Tally::default());
    let bad = bad_field_values();
    let good: [Vec<u32>; 10] = std::array::from_fn(|field| {
        let mut values = field_values(field);
        values.retain(|value| !bad[field].contains(value));
        values
    });
    for _ in 0..20_000 {
        let mut bytes = record_of(&CALM, 0.0).bytes();
        for (field, values) in good.iter().enumerate() {
            put(&mut bytes, field, rng.pick(values));
        }
        let spoiled = rng.one_in(10).then(|| rng.within(0, 9));
        if let Some(field) = spoiled {
            spoil(&mut rng, &bad, &mut bytes, 1 << field);
        }
        let (record, place) = (read_record(&bytes), rng.within(0, 2) as usize);
        let file = written(&tally.both, &record, 3, place);
        assert_eq!(file[8 + 24 * place..][..24], bytes);
        let read = tally.read(&file, place);
        let number = spoiled.map(|field| BY_FIELD[field as usize] as u8);
        assert_eq!(read, number.map_or(Ok(record), |n| Err(Some(n))));
        assert_eq!(
            tally.test(&file),
            number.map_or(accepted(3), |n| refused_file(n, place))
        );
        assert_eq!(tally.read(&file, 3 + place), Err(None));
    }
    tally.done("extremes of all fields at once", &[11..=20]);
}

/// The three floats at patterns of every sign and exponent, minus zero and subnormals among them.
#[test]
fn floats_kept_bit_for_bit() {
    let (mut rng, mut tally) = (Rng::new(60), Tally::default());
    let (mut subnormal, mut minus_zero) = (0, 0);
    let patterns: Vec<u32> = float_patterns(&mut rng).step_by(23).collect();
    for bits in patterns.into_iter().chain([0, 1 << 31, 1, 1 << 31 | 1]) {
        for field in 0..3 {
            let record = calm_with(field, bits);
            let file = written(&tally.both, &record, 1, 0);
            let read = tally.read(&file, 0);
            assert_eq!(read.is_ok(), tally.test(&file) == accepted(1));
            if let Ok(read) = read {
                assert_eq!(read, record);
                subnormal += u64::from(bits << 1 != 0 && bits << 1 < 0x0100_0000);
                minus_zero += u64::from(bits == 1 << 31);
            }
            assert_eq!(tally.read(&file, 1), Err(None));
        }
    }
    assert!(subnormal > 500 && minus_zero >= 2);
    tally.done("floats of every sign and exponent", &[11..=13]);
    tally.both_kinds(10);
}

/// Random records at every place of short files, and of one that is as long as can be; then some spoiled.
#[test]
fn random_files() {
    let (mut rng, mut tally) = (Rng::new(61), Tally::default());
    let bad = bad_field_values();
    for count in (0..=40).cycle().take(400).chain([2_599, 2_600]) {
        let mut file = random_file(&mut rng, count);
        assert_eq!(tally.whole(&file), accepted(count as usize));
        if count == 0 {
            continue;
        }
        let mut first = (usize::MAX, 0);
        for _ in 0..4 {
            let place = rng.draw() as usize % count as usize;
            let set = rng.draw() as u32 & rng.draw() as u32 | 1 << rng.within(0, 9);
            spoil(&mut rng, &bad, place_mut(&mut file, place), set);
            if place <= first.0 {
                let before = if place == first.0 { first.1 } else { 0 };
                first = (place, before | set);
            }
        }
        let number = 11 + first.1.trailing_zeros() as u8;
        assert_eq!(tally.whole(&file), refused_file(number, first.0));
    }
    tally.done("random files, then spoiled", &[11..=20]);
}

/// Lengths around the right one, and every value of every header byte.
#[test]
fn headers_and_lengths() {
    let mut tally = Tally::default();
    for count in [0, 1, 2, 3, 2_600, 2_601] {
        let mut long = calm_file(count);
        let right = long.len();
        long.resize(right + 25, 0);
        let near = right.saturating_sub(25)..=right + 25;
        for len in (0..=8).chain(near.step_by(if count > 3 { 5 } else { 1 })) {
            tally.whole(&long[..len]);
        }
    }
    for count in [0, 1, 3] {
        for at in 0..8 {
            for byte in 0..=255 {
                let mut file = calm_file(count);
                file[at] = byte;
                tally.whole(&file);
            }
        }
    }
    // each number by its name
    let changed = [(MARK, 0), (VERSION, 4), (ZERO, 5), (COUNT, 7), (LENGTH, 6)];
    for (named, at) in changed {
        let mut file = calm_file(3);
        file[at] ^= 0x10;
        assert_eq!(tally.whole(&file).refusal, named);
    }
    assert_eq!(tally.whole(&calm_file(3)[..7]).refusal, SHORT);
    assert_eq!(windshear::write_header(1, 3, &mut [0; 9]), BUFFER);
    tally.done("other headers and lengths", &[1..=6]);
}

/// Bytes flipped and files cut short or long, at random; and records of random bytes.
#[test]
fn damaged_files() {
    let (mut rng, mut tally) = (Rng::new(62), Tally::default());
    let kept = examples().map(|(_, file)| file);
    for _ in 0..12_000 {
        tally.whole(&damaged_file(&mut rng, &kept));
        let raw: [u8; 24] = std::array::from_fn(|_| rng.draw() as u8);
        let file = file_of(&[read_record(&raw), record_of(&CALM, 0.0)]);
        assert_eq!(file[8..32], raw);
        tally.whole(&file);
    }
    // 21 refuses whole files alone
    assert!(tally.tested.remove(&21) > Some(100));
    tally.done("damaged files and random bytes", &[1..=6, 11..=20]);
    tally.both_kinds(10_000);
}

/// The Rust example: an exposure lights a lamp and a gust does not; a refused sample leaves the lamp
/// as it was; the bytes of a calm record's answer.
#[test]
fn rust_example() {
    // a change of 33 at each sample is cut, so that 61 of them light a lamp and 60 do not
    let changing = |by, n| (0..=n).map(|i| by * i).collect::<Vec<i32>>();
    let and = |mut along_winds: Vec<i32>, last| {
        along_winds.push(last);
        along_winds
    };
    let lamps = [
        (vec![], Alert::None),
        (vec![0, 2_000], Alert::None),
        (changing(33, EXPOSURE), Alert::None),
        (changing(33, EXPOSURE + 1), Alert::Red),
        (and(changing(33, EXPOSURE + 1), 20_001), Alert::Red),
        (and(changing(-33, EXPOSURE + 1), -20_001), Alert::Amber),
    ];
    for (along_winds, lamp) in &lamps {
        assert_eq!(offer::lamp_after(along_winds), *lamp, "{along_winds:?}");
    }
    let calm = sent_record(&record_of(&CALM, 0.0));
    assert_eq!(offer::answer_to(&calm), Ok(vec![0; 10]));
    let fast = windshear::Record {
        airspeed: f32::INFINITY,
        ..calm
    };
    assert_eq!(offer::answer_to(&fast), Err(AIRSPEED));
    let mut forged = State::fresh();
    forged.core.red = 601;
    assert_eq!(forged.offer_lent(sent(&CALM)).lamp(), Err(STATE));
    offer::main();
    println!("compared {} answers of the Rust example", lamps.len() + 3);
}
