//! Run files made from samples, good and damaged, and the floats in them.

use crate::gen::{any, dropping, gusts, numbered, Rng, CALM};
use crate::reference::{read_record, Record, Sample, Version, RANGES, VERSIONS};

/// The record of a sample, its speeds the floats nearest to so many hundredths more (below half of
/// one, so that they stay the same). What does not fit its field becomes a value that is refused.
pub fn record_of(s: &Sample, more: f64) -> Record {
    let knots = |hundredths: i32| (((f64::from(hundredths) + more) / 100.0) as f32).to_bits();
    let half = |field: i32| i16::try_from(field).unwrap_or(i16::MIN);
    let byte = |field: i32| u8::try_from(field).unwrap_or(u8::MAX);
    Record {
        along: knots(s.along),
        vertical: knots(s.vertical),
        airspeed: knots(s.airspeed),
        height: half(s.height),
        pitch: half(s.pitch),
        stall: half(s.stall),
        climb: half(s.climb),
        vs1: s.vs1.try_into().unwrap_or(u16::MAX),
        mode: byte(s.mode),
        deselect: byte(s.deselect),
        frame: s.frame,
    }
}

/// The file of the records in a version, whatever they hold.
pub fn file_in(version: &Version, records: &[Record]) -> Vec<u8> {
    let count = (records.len() as u16).to_le_bytes();
    let mut file = [b"WSR", &[version.number as u8, 0, 0], &count[..]].concat();
    file.extend(records.iter().flat_map(|record| record.bytes_in(version)));
    file
}

/// The version 1 file of the records, whatever they hold.
pub fn file_of(records: &[Record]) -> Vec<u8> {
    file_in(&VERSIONS[0], records)
}

/// The file of the samples in a version, each speed the float nearest to it.
pub fn samples_in(version: &Version, list: &[Sample]) -> Vec<u8> {
    let records: Vec<_> = list.iter().map(|s| record_of(s, 0.0)).collect();
    file_in(version, &records)
}

/// The version 1 file of the samples, each speed the float nearest to it.
pub fn file_of_samples(list: &[Sample]) -> Vec<u8> {
    samples_in(&VERSIONS[0], list)
}

/// The version that a file made here has.
pub fn version_of(file: &[u8]) -> &'static Version {
    &VERSIONS[usize::from(file[3] == 2)]
}

/// The length of the right answer buffer, as far as the header has a count that is not too large.
pub fn right_len(file: &[u8]) -> usize {
    let count = file
        .get(6..8)
        .map_or(0, |b| u16::from_le_bytes([b[0], b[1]]));
    10 * usize::from(count.min(2_601))
}

/// The length of the right answer buffer, or now and then another.
pub fn some_len(rng: &mut Rng, file: &[u8]) -> usize {
    let right = right_len(file);
    let wrong = rng.pick(&[right + 1, right + 10, right.saturating_sub(1), right / 2]);
    if rng.one_in(8) {
        wrong
    } else {
        right
    }
}

/// So many hundredths more or less that a speed stays the same.
pub fn within_half(rng: &mut Rng) -> f64 {
    f64::from(rng.within(-49, 49)) / 100.0
}

/// A good version 1 file, its speeds anywhere within their hundredths.
pub fn random_file(rng: &mut Rng, count: i32) -> Vec<u8> {
    random_file_in(rng, &VERSIONS[0], count)
}

/// As `random_file`, in a version. In version 2 the host drops frames.
pub fn random_file_in(rng: &mut Rng, version: &Version, count: i32) -> Vec<u8> {
    let mut list = if rng.one_in(2) {
        gusts(rng, count)
    } else {
        any(rng, count)
    };
    if version.number == 2 {
        list = dropping(rng, &list);
    }
    let records = list.iter().map(|s| record_of(s, within_half(rng)));
    file_in(version, &records.collect::<Vec<_>>())
}

/// Up to three bytes changed; now and then cut short, or made longer.
pub fn damage(rng: &mut Rng, file: &mut Vec<u8>) {
    for _ in 0..rng.within(0, 3) {
        let end = if rng.one_in(4) { 8 } else { file.len() };
        let at = rng.draw() as usize % end;
        file[at] = match rng.within(0, 3) {
            0 => rng.draw() as u8,
            1 => rng.pick(&[0, 255]),
            _ => file[at] ^ 1 << rng.within(0, 7),
        };
    }
    if rng.one_in(6) {
        let end = if rng.one_in(10) { 9 } else { file.len() };
        file.truncate(rng.draw() as usize % end);
    }
    if rng.one_in(10) {
        file.resize(file.len() + rng.within(1, 30) as usize, rng.draw() as u8);
    }
}

/// A good file of either version, mostly short, or one of those given, damaged. An exposure that lights a lamp
/// has room in a long one.
pub fn damaged_file(rng: &mut Rng, given: &[Vec<u8>]) -> Vec<u8> {
    let most = rng.pick(&[40, 40, 40, 40, 240]);
    let count = rng.within(0, most);
    let mut file = if rng.one_in(20) {
        given[rng.draw() as usize % given.len()].clone()
    } else {
        let version = rng.pick(&VERSIONS);
        random_file_in(rng, &version, count)
    };
    damage(rng, &mut file);
    file
}

/// Mantissas beside every power of two, and so many random ones.
pub fn mantissas(rng: &mut Rng, random: usize) -> Vec<u32> {
    let turning = (0..=23).flat_map(|k| [-1, 0, 1].map(|beside| (1 << k) + beside));
    let random = (0..random).map(|_| rng.draw() as i32);
    let mantissas = turning.chain(random);
    mantissas.map(|m| m as u32 & 0x7f_ffff).collect()
}

/// Patterns of floats of all signs and exponents, with many mantissas; more where the hundredths are
/// neither all 0 nor all beyond every range.
pub fn float_patterns(rng: &mut Rng) -> impl Iterator<Item = u32> + '_ {
    (0..512).flat_map(|top| {
        let all_alike = !(118..=141).contains(&(top % 256));
        let mantissas = mantissas(rng, if all_alike { 8_000 } else { 100_000 });
        mantissas.into_iter().map(move |m| top << 23 | m)
    })
}

/// The bytes of the record at a place.
pub fn place_mut(file: &mut [u8], place: usize) -> &mut [u8] {
    let bytes = version_of(file).record;
    &mut file[8 + bytes * place..][..bytes]
}

/// A version 1 file of so many calm records.
pub fn calm_file(count: usize) -> Vec<u8> {
    calm_file_in(&VERSIONS[0], count)
}

/// As `calm_file`, in a version; each stands for one frame.
pub fn calm_file_in(version: &Version, count: usize) -> Vec<u8> {
    samples_in(version, &numbered(&vec![CALM; count], 0, |_| 1))
}

/// Where each field stands in a record: its first byte, and how many.
const FIELDS: [(usize, usize); 10] = [
    (0, 4),
    (4, 4),
    (8, 4),
    (12, 2),
    (14, 2),
    (16, 2),
    (18, 2),
    (20, 2),
    (22, 1),
    (23, 1),
];

/// Puts a value into a field of a record's bytes.
pub fn put(record: &mut [u8], field: usize, value: u32) {
    let (at, size) = FIELDS[field];
    record[at..at + size].copy_from_slice(&value.to_le_bytes()[..size]);
}

/// The calm record with one field replaced.
pub fn calm_with(field: usize, value: u32) -> Record {
    let mut bytes = record_of(&CALM, 0.0).bytes();
    put(&mut bytes, field, value);
    read_record(&bytes)
}

/// Half a step around zero and both ends of a field, as the floats beside it; every kind of float.
fn floats((low, high): (i32, i32)) -> Vec<u32> {
    let turning = [low, 0, high].into_iter().flat_map(|h| {
        [-1.0, -0.5, 0.0, 0.5, 1.0].map(|more| (((f64::from(h) + more) / 100.0) as f32).to_bits())
    });
    let kinds = [
        1,           // the least subnormal
        0x007f_ffff, // the greatest
        0x0080_0000, // the least normal
        0x3e00_0000, // 0.125
        0x4348_2000, // 200.125
        0x4b80_0000, // 2^24
        0x7f7f_ffff, // the greatest
        0x7f80_0000, // infinity
        0x7f80_0001, // signalling NaNs
        0x7fbf_ffff,
        0x7fc0_0000, // quiet ones
        0x7fff_ffff,
    ];
    let beside = |bits: u32| [-2, -1, 0, 1, 2].map(|d| bits.wrapping_add_signed(d));
    let near = turning.flat_map(beside).chain(kinds);
    near.flat_map(|bits| [bits, bits ^ 1 << 31]).collect()
}

/// Values to put into a field, good and bad.
pub fn field_values(field: usize) -> Vec<u32> {
    let (low, high) = RANGES[field];
    match FIELDS[field].1 {
        4 => floats((low, high)),
        2 => {
            let ends = [low, high, 0].into_iter().flat_map(|end| end - 2..=end + 2);
            let all = ends.chain([i16::MIN.into(), i16::MAX.into()]);
            all.map(|value| value as u32).collect()
        }
        _ => (0..256).collect(),
    }
}

/// Each field's values that are refused.
pub fn bad_field_values() -> [Vec<u32>; 10] {
    std::array::from_fn(|field| {
        let refused = |&value: &u32| calm_with(field, value).sample().is_err();
        field_values(field).into_iter().filter(refused).collect()
    })
}

/// Makes the fields of a set bad.
pub fn spoil(rng: &mut Rng, bad: &[Vec<u32>; 10], record: &mut [u8], set: u32) {
    for field in (0..10).filter(|field| set >> field & 1 == 1) {
        put(record, field, rng.pick(&bad[field]));
    }
}
