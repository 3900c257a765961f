//! 02, A6: run files of both versions, good and damaged, read, written, run and listed, beside the reference and the plain program;
//! and what version 2 says as version 1 does.

use std::collections::BTreeMap;
use windshear::Outcome;
use windshear_tests::both::Both;
use windshear_tests::exchange::Exchange;
use windshear_tests::files::*;
use windshear_tests::gen::*;
use windshear_tests::lend::lend;
use windshear_tests::library::{accepted_file, refused, refused_file};
use windshear_tests::plain;
use windshear_tests::reference::{
    self, read_record, Record, Sample, Unit, Version, MOST_FRAMES, VERSIONS,
};

const ONE: Version = VERSIONS[0];
const TWO: Version = VERSIONS[1];

/// Calls of the reference, the library and the plain program, and how often each number came.
#[derive(Default)]
struct Tally {
    both: Both,
    came: BTreeMap<u16, u64>,
}

impl Tally {
    /// A run with an answer buffer so long.
    fn run(&mut self, file: &[u8], len: usize) -> (Outcome, Vec<u8>) {
        let want = self.both.run(file, len);
        let by_plain = |answers: &mut [u8]| plain::run(file, answers).err().unwrap_or_default();
        let ((number, place), bytes) = lend(len, by_plain, want);
        let outcome = refused(number, place as usize);
        *self.came.entry(outcome.refusal).or_default() += 1;
        (outcome, bytes)
    }

    /// A run with the right answer buffer, the file's own test, and its listing in a lent buffer.
    fn whole(&mut self, file: &[u8]) -> (Outcome, Vec<u8>) {
        let test = self.both.test_file(file);
        let (outcome, bytes) = self.run(file, right_len(file));
        assert_eq!((test.refusal, test.place), (outcome.refusal, outcome.place));
        let text = reference::listing(file);
        match windshear::listing(file) {
            Ok(listing) => assert_eq!(String::from_utf8(listing).unwrap(), text),
            Err(Outcome { refusal, place }) => {
                assert_eq!(format!("refused {refusal} at {place}\n"), text)
            }
        }
        (outcome, bytes)
    }

    /// Prints the line, and tests that exactly these numbers came.
    fn done(&self, what: &str, numbers: impl IntoIterator<Item = u16>) {
        let (compared, came) = (self.both.compared(), &self.came);
        println!("compared {compared} answers and buffers of {what}, by number {came:?}");
        assert!(came.keys().copied().eq(numbers), "{came:?}");
    }
}

/// Every list with dropped frames as a version 2 file: as it is, which is refused at its first bad sample; its accepted samples,
/// which are answered as they are alone; and these damaged.
#[test]
fn lists_with_dropped_frames() {
    let mut rng = Rng::new(620);
    let [mut whole, mut accepted, mut damaged] = [(); 3].map(|()| Tally::default());
    let mut lit = [0u64; 3];
    for (name, mut list) in dropped_lists() {
        list.truncate(TWO.most);
        whole.whole(&samples_in(&TWO, &list));
        let (mut unit, mut answers) = (Unit::new(), Vec::new());
        list.retain(|s| unit.offer(s).map(|a| answers.push(a)).is_ok());
        let records = list.iter().map(|s| record_of(s, within_half(&mut rng)));
        let mut file = file_in(&TWO, &records.collect::<Vec<_>>());
        let (outcome, bytes) = accepted.whole(&file);
        assert_eq!(outcome, Outcome::default(), "{name}");
        for (bytes, answer) in bytes.chunks(10).zip(&answers) {
            assert_eq!((bytes[0], bytes[1]), (answer.alert, answer.voice), "{name}");
            assert_eq!(bytes[4..8], answer.shear.to_le_bytes(), "{name}");
            lit[usize::from(answer.alert)] += 1;
        }
        damage(&mut rng, &mut file);
        damaged.run(&file, some_len(&mut rng, &file));
    }
    println!("of the answers {lit:?} have each alert");
    assert!(lit.iter().all(|&n| n > 30_000));
    whole.done("lists as version 2 files", (0..=0).chain(11..=21));
    accepted.done("their accepted samples", [0]);
    damaged.done("these damaged", (0..=7).chain(11..=21));
}

/// A version 1 file and the version 2 files of the same records with successive numbers, from anywhere and across 65,535 to 0: the
/// same answers, the same listing, the same refusals.
#[test]
fn version_2_says_what_version_1_says() {
    let (mut rng, mut tally) = (Rng::new(621), Tally::default());
    let mut answers = 0;
    let both = Both::new();
    for k in 0..300 {
        let n = if k % 50 == 0 {
            2_500
        } else {
            rng.within(0, 300)
        };
        let mut list = [gusts, any, turbulence, calm_air][k % 4](&mut rng, n);
        if k % 7 == 3 && n > 0 {
            let bad = rng.draw() as usize % list.len();
            list[bad].mode = 2;
        }
        let file = file_of_samples(&list);
        let (outcome, bytes) = tally.whole(&file);
        let text = reference::listing(&file);
        for first in [0, 1, 65_535, 65_400, rng.draw() as u16] {
            let file = samples_in(&TWO, &numbered_all(&list, first));
            assert_eq!(file.len(), 8 + 26 * list.len());
            let in_two = tally.whole(&file);
            assert_eq!(in_two.0, outcome, "from {first}");
            // what is refused leaves the buffer, whose pattern is of its length
            assert!(in_two.1 == bytes, "from {first}");
            assert_eq!(reference::listing(&file), text, "from {first}");
            if k % 10 == 0 {
                assert_eq!(both.listing(&file), text, "from {first}");
            }
            answers += list.len();
        }
    }
    println!("{answers} records said the same in version 2");
    assert!(answers > 200_000 && both.compared() > 100);
    tally.done("files of both versions", [0, 19]);
}

/// Successive numbers, whatever the samples hold.
fn numbered_all(list: &[Sample], first: u16) -> Vec<Sample> {
    let frames = (0..=u16::MAX).cycle().skip(first.into());
    let one = |(s, frame): (&Sample, u16)| Sample { frame, ..*s };
    list.iter().zip(frames).map(one).collect()
}

/// Every elapsed number at every place of a file: 1 to 20 are accepted, all others are refused by 21 with that place. The first
/// record has any number.
#[test]
fn every_elapsed_number_at_every_place() {
    let mut tally = Tally::default();
    let elapsed = (0..=22).chain([
        255, 256, 257, 276, 277, 4_096, 32_768, 65_515, 65_516, 65_535,
    ]);
    for (elapsed, first) in
        elapsed.flat_map(|elapsed| [0, 65_530, 40_000].map(|first| (elapsed, first)))
    {
        for place in 0..6 {
            let list = numbered(&[CALM; 6], first, |i| if i == place { elapsed } else { 1 });
            let fits = place == 0 || (1..=MOST_FRAMES).contains(&elapsed);
            let number = if fits { 0u16 } else { 21 };
            let outcome = refused(number, if fits { 0 } else { place });
            assert_eq!(
                tally.whole(&samples_in(&TWO, &list)).0,
                outcome,
                "{elapsed}"
            );
            // version 1 has no numbers
            assert_eq!(tally.whole(&samples_in(&ONE, &list)).0, Outcome::default());
        }
    }
    let mut longest = calm_file_in(&TWO, TWO.most);
    assert_eq!(tally.whole(&longest).0, Outcome::default());
    for place in [1, 255, 256, 2_498, 2_499] {
        let kept = place_mut(&mut longest, place)[24];
        place_mut(&mut longest, place)[24] ^= 0x40;
        assert_eq!(tally.whole(&longest).0, refused(21u16, place));
        place_mut(&mut longest, place)[24] = kept;
    }
    tally.done("files with every elapsed number", [0, 21]);
}

/// Of several bad records the first decides, and in it 11 to 20 go before 21.
#[test]
fn the_first_bad_record_and_its_first_number() {
    let (mut rng, mut tally) = (Rng::new(622), Tally::default());
    let bad = bad_field_values();
    for _ in 0..12_000 {
        let count = rng.within(1, 12) as usize;
        let mut file = random_file_in(&mut rng, &TWO, count as i32);
        let first = (0..count).find_map(|place| {
            // the fields made bad, and whether the number is
            let set = if rng.one_in(8) {
                rng.draw() as u32 & rng.draw() as u32 & 1_023
            } else {
                0
            };
            let late = place > 0 && rng.one_in(8);
            if late {
                let last = read_record(place_mut(&mut file, place - 1)).frame;
                let frame = last.wrapping_add(rng.pick(&REFUSED_FRAMES));
                place_mut(&mut file, place)[24..].copy_from_slice(&frame.to_le_bytes());
            }
            spoil(&mut rng, &bad, place_mut(&mut file, place), set);
            match (set, late) {
                (0, false) => None,
                (0, true) => Some((21, place)),
                _ => Some((11 + set.trailing_zeros() as u16, place)),
            }
        });
        if let Some((_, place)) = first {
            for later in place + 1..count {
                let set = rng.pick(&[0, 0, 1_023]) & rng.draw() as u32;
                spoil(&mut rng, &bad, place_mut(&mut file, later), set);
            }
        }
        let (number, place) = first.unwrap_or_default();
        assert_eq!(tally.whole(&file).0, refused(number, place));
    }
    tally.done("version 2 files with bad records", (0..=0).chain(11..=21));
}

/// Every set of defects in their order, in both versions: mark, version, sixth byte, count, length, answer buffer, a field, a number.
#[test]
fn every_set_of_defects() {
    let mut tally = Tally::default();
    for (version, set) in VERSIONS
        .iter()
        .flat_map(|version| (0..256_u32).map(move |set| (version, set)))
    {
        for (variant, other) in [1, 4, 128, 255].into_iter().enumerate() {
            let has = |k: u32| set >> k & 1 == 1;
            let count = if has(3) { version.most + 1 } else { 3 };
            let mut file = calm_file_in(version, count);
            let bytes = version.record;
            let mut spoiled = |k, at: usize, by: u8| file[at] ^= if has(k) { by } else { 0 };
            spoiled(0, variant.min(2), other);
            // neither 1 nor 2
            spoiled(1, 3 + variant % 2, other | 4);
            spoiled(2, 5, other);
            spoiled(6, 8 + bytes + 23, 2);
            if version.number == 2 {
                spoiled(7, 8 + bytes + 25, other);
            }
            if has(4) {
                file.push(other);
            }
            let len = right_len(&file) + usize::from(has(5)) * variant.max(1);
            let late = if version.number == 2 { 21 } else { 0 };
            let numbers = [2, 3, 4, 5, 6, 7, 20, late, 0];
            let number: u16 = numbers[set.trailing_zeros().min(8) as usize];
            let outcome = refused(number, usize::from(number > 7));
            assert_eq!(
                tally.run(&file, len).0,
                outcome,
                "{version:?} {set:b} {other}"
            );
        }
    }
    tally.done(
        "files with every set of defects",
        [0].into_iter().chain(2..=7).chain(20..=21),
    );
}

/// Counts and lengths by the version: 2,600 and 2,500 records at most, 24 and 26 bytes each; every version's number.
#[test]
fn counts_lengths_and_versions() {
    let mut tally = Tally::default();
    for (version, other) in [(&ONE, &TWO), (&TWO, &ONE)] {
        for count in [
            0, 1, 2, 12, 13, 2_400, 2_499, 2_500, 2_501, 2_599, 2_600, 2_601, 65_535,
        ] {
            let file = calm_file_in(version, count);
            let fits = count <= version.most;
            let test = if fits {
                accepted_file(version, count)
            } else {
                refused_file(5u16, 0)
            };
            assert_eq!(tally.both.test_file(&file), test);
            tally.whole(&file);
            // the other version's length; where the bytes are the same there is no record
            let mut as_other = calm_file_in(other, count);
            as_other[3] = version.number as u8;
            let number = match count {
                0 => 0u16,
                _ if fits => 6,
                _ => 5,
            };
            assert_eq!(tally.whole(&as_other).0, refused(number, 0), "{count}");
        }
        let mut long = calm_file_in(version, 14);
        long.resize(8 + 30 * 14, 0);
        for len in 0..long.len() {
            let number = match len {
                0..8 => 1u16,
                _ if len == 8 + version.record * 14 => 0,
                _ => 6,
            };
            assert_eq!(tally.whole(&long[..len]).0, refused(number, 0), "{len}");
        }
    }
    for number in 0..=u16::MAX {
        for version in &VERSIONS {
            let mut file = calm_file_in(version, 1);
            file[3..5].copy_from_slice(&number.to_le_bytes());
            let want = match number {
                1 | 2 if number == version.number => 0u16,
                1 | 2 => 6,
                _ => 3,
            };
            assert_eq!(tally.both.test_file(&file).refusal, want, "{number}");
        }
    }
    tally.done("counts, lengths and versions", [0, 1, 5, 6]);
}

/// Versions to write in: the two, and others, which are equal to them in their low bits or not.
const WRITTEN: [u32; 10] = [
    0,
    1,
    2,
    3,
    65_535,
    65_536,
    65_537,
    65_538,
    1 << 31 | 1,
    u32::MAX,
];

/// The version of a number, if there is one.
fn known(number: u32) -> Option<&'static Version> {
    VERSIONS
        .iter()
        .find(|version| u32::from(version.number) == number)
}

/// Headers: 3, then 5, then 7; a refused one leaves the buffer.
#[test]
fn headers_by_version() {
    let both = Both::new();
    for version in WRITTEN {
        let known = known(version);
        for count in [
            0,
            1,
            2_499,
            2_500,
            2_501,
            2_599,
            2_600,
            2_601,
            65_535,
            65_536,
            68_036,
            u32::MAX,
        ] {
            for len in [0, 7, 8, 9, 24, 26] {
                let number = match known {
                    None => 3,
                    Some(known) if count as usize > known.most => 5,
                    Some(_) if len != 8 => 7,
                    Some(_) => 0,
                };
                let written = both.write_header(version, count, len);
                assert_eq!(
                    written.err().unwrap_or(0),
                    number,
                    "{version} {count} {len}"
                );
                if let Ok(header) = written {
                    let [low, high] = (count as u16).to_le_bytes();
                    assert_eq!(header, [b'W', b'S', b'R', version as u8, 0, 0, low, high]);
                }
            }
        }
    }
    both.done();
}

/// Records: 3, then 7, then 11 to 20; 21 is not tested, so that every number is written. The record is read again with its fields, in
/// version 1 without its number, and written again with its bytes.
#[test]
fn records_by_version() {
    let (mut rng, both) = (Rng::new(623), Both::new());
    let bad = bad_field_values();
    let mut refusals = BTreeMap::new();
    for k in 0..6_000 {
        let mut bytes = [0; 26];
        bytes[..24]
            .copy_from_slice(&record_of(&random_sample(&mut rng), within_half(&mut rng)).bytes());
        let any = rng.draw() as u16;
        let frame = rng.pick(&[0, 1, 255, 256, 32_768, 65_535, any]);
        bytes[24..].copy_from_slice(&frame.to_le_bytes());
        let spoiled = rng.one_in(4).then(|| rng.within(0, 9));
        if let Some(field) = spoiled {
            spoil(&mut rng, &bad, &mut bytes, 1 << field);
        }
        let record = read_record(&bytes);
        assert_eq!(record.frame, frame);
        for version in WRITTEN {
            let known = known(version);
            for len in [0, 8, 23, 24, 25, 26, 27, 48, 52] {
                let written = both.write_record(version, &record, len);
                let number = match (known, spoiled) {
                    (None, _) => 3,
                    (Some(known), _) if len != known.record => 7,
                    (_, Some(field)) => 11 + field as u8,
                    _ => 0,
                };
                assert_eq!(
                    written.as_ref().err().unwrap_or(&0),
                    &number,
                    "{version} {len}"
                );
                *refusals.entry(number).or_insert(0u64) += 1;
                if let (Some(version), Ok(written)) = (known, written) {
                    assert_eq!(written, bytes[..version.record]);
                    both_ways(&both, version, &record, k % 3);
                }
            }
        }
    }
    println!("records written, by number {refusals:?}");
    assert!(refusals
        .keys()
        .copied()
        .eq([0, 3, 7].into_iter().chain(11..=20)));
    both.done();
}

/// A record at a place of a file: read as it was written, and written as it was read. A record's number is that of its sample in
/// version 2; in version 1 it has none, and its sample has the place.
fn both_ways(both: &Both, version: &Version, record: &Record, place: usize) {
    let mut records = vec![record_of(&CALM, 0.0); 3];
    records[place] = *record;
    let file = file_in(version, &records);
    let read = both.read_record(&file, place).unwrap();
    let number = if version.number == 2 { record.frame } else { 0 };
    assert_eq!(
        read.record,
        Record {
            frame: number,
            ..*record
        }
    );
    let of_sample = if version.number == 2 {
        record.frame
    } else {
        place as u16
    };
    assert_eq!(read.sample.frame, of_sample);
    let again = both.write_record(version.number.into(), &read.record, version.record);
    assert_eq!(again.unwrap(), place_mut(&mut file.clone(), place));
}

/// Every place of the longest files: a record alone has no elapsed frames, so that it is read whatever its number; the samples of a
/// version 1 file, offered one by one, stand for one frame each, as in the run.
#[test]
fn readings_by_version() {
    let (mut rng, both) = (Rng::new(624), Both::new());
    for version in &VERSIONS {
        let list = gusts(&mut rng, version.most as i32);
        let mut list = dropping(&mut rng, &list);
        let file = samples_in(version, &list);
        let answers = both.run(&file, right_len(&file)).unwrap();
        let mut pair = both.fresh("replayed");
        for (place, answer) in answers.chunks(10).enumerate() {
            let read = both.read_record(&file, place).unwrap();
            let frame = if version.number == 2 {
                list[place].frame
            } else {
                place as u16
            };
            assert_eq!(
                read.sample,
                Sample {
                    frame,
                    ..list[place]
                }
            );
            let replayed = pair.offer(&read.sample).unwrap();
            assert_eq!((replayed.alert, replayed.voice), (answer[0], answer[1]));
            assert_eq!(replayed.shear.to_le_bytes(), answer[4..8]);
        }
        assert_eq!(both.read_record(&file, version.most), Err(None));
        for s in &mut list {
            s.frame = rng.draw() as u16;
        }
        let file = samples_in(version, &list);
        let number = if version.number == 2 { 21 } else { 0 };
        assert_eq!(both.test_file(&file).refusal, number);
        for (place, s) in list.iter().enumerate() {
            let read = both.read_record(&file, place).unwrap();
            let kept = if version.number == 2 { s.frame } else { 0 };
            assert_eq!(read.record.frame, kept);
        }
    }
    both.done();
}

/// Files of version 2, damaged at random, and records of random bytes: read at each place, run and listed.
#[test]
fn damaged_files() {
    let (mut rng, mut tally) = (Rng::new(625), Tally::default());
    let given = [
        calm_file_in(&TWO, 2_500),
        calm_file_in(&TWO, 0),
        random_file_in(&mut rng, &TWO, 300),
    ];
    for _ in 0..12_000 {
        let file = damaged_file(&mut rng, &given);
        let len = some_len(&mut rng, &file);
        tally.run(&file, len);
        for place in 0..(right_len(&file) / 10).min(30) {
            tally.both.read_record(&file, place).ok();
        }
        // a number changed alone
        let count = rng.within(2, 30);
        let mut file = random_file_in(&mut rng, &TWO, count);
        let place = rng.within(0, count - 1) as usize;
        place_mut(&mut file, place)[24 + rng.within(0, 1) as usize] ^= 1 << rng.within(0, 7);
        tally.whole(&file);
    }
    tally.done("damaged files", (0..=7).chain(11..=21));
}

/// 02, A6: CSV stays version 1. An export refuses version 2 by 3, before 4, 5 and 6, after 1 and 2, however good it is; the import
/// writes version 1.
#[test]
fn exports_refuse_version_2() {
    let (mut rng, mut exchange) = (Rng::new(626), Exchange::new());
    for count in [0, 1, 3, 300, 2_500, 2_501, 2_600] {
        assert_eq!(exchange.export(&calm_file_in(&TWO, count)), Err((3, 0)));
    }
    for set in 0..64_u32 {
        let has = |k: u32| set >> k & 1 == 1;
        let mut file = calm_file_in(&TWO, if has(3) { 2_501 } else { 3 });
        if has(0) {
            file[rng.within(0, 2) as usize] ^= 0x20;
        }
        if has(1) {
            file[5] = 1;
        }
        if has(2) {
            file.push(0);
        }
        if has(4) {
            place_mut(&mut file, 1)[23] = 2;
        }
        if has(5) {
            file.truncate(7);
        }
        let number = match (has(5), has(0)) {
            (true, _) => 1,
            (_, true) => 2,
            _ => 3,
        };
        assert_eq!(exchange.export(&file), Err((number, 0)), "{set:b}");
    }
    for _ in 0..2_000 {
        let n = rng.within(0, 40);
        let file = random_file_in(&mut rng, &TWO, n);
        assert_eq!(exchange.export(&file), Err((3, 0)));
        let mut as_one = file_in(&ONE, &[]);
        as_one[6..8].copy_from_slice(&file[6..8]);
        as_one.extend(file[8..].chunks(26).flat_map(|record| &record[..24]));
        let text = exchange.export(&as_one).unwrap();
        assert_eq!(exchange.import(&text).unwrap()[3..5], [1, 0]);
    }
    exchange.done("exports of version 2", &[0..=3]);
}

/// The listing program: the longest files of both versions, as long as it reads, and a byte more.
#[test]
fn longest_listings() {
    let (mut rng, both) = (Rng::new(627), Both::new());
    for version in &VERSIONS {
        let mut file = random_file_in(&mut rng, version, version.most as i32);
        let right = file.len();
        assert_eq!(both.listing(&file).lines().count(), version.most + 2);
        file.resize(80_000, 0);
        for len in [
            right - 1,
            right + 1,
            62_408,
            62_409,
            65_007,
            65_008,
            65_009,
            65_010,
            80_000,
        ] {
            let text = both.listing(&file[..len]);
            assert_eq!(text == "refused 6 at 0\n", len != right, "{len}");
        }
    }
    both.done();
}
