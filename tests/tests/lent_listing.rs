//! The listing in a lent buffer beside the reference's: of good and damaged files, with room and without.

use std::collections::BTreeMap;
use windshear::LISTING_LINE;
use windshear_tests::examples::examples;
use windshear_tests::files::*;
use windshear_tests::gen::*;
use windshear_tests::reference::{listing, test_file, VERSIONS};

/// What stays around a lent buffer.
const MARGIN: usize = 32;

/// A buffer with a pattern, its middle lent for so many bytes: the length answered, and the buffer after.
fn lent(file: &[u8], len: usize) -> (usize, Vec<u8>, Vec<u8>) {
    let before: Vec<u8> = (0..len + 2 * MARGIN)
        .map(|i| (167 * i + 59 * len + 11) as u8)
        .collect();
    let mut after = before.clone();
    let length = windshear::list(file, &mut after[MARGIN..][..len]);
    (length, before, after)
}

/// The listing with so much room, or more; with less, nothing is written. Gives back how many were compared.
fn compare(file: &[u8]) -> u64 {
    let text = listing(file);
    let room = LISTING_LINE * test_file(file).map_or(1, |(_, count)| count + 2);
    assert!(text.len() <= room, "the room is enough");
    for len in [0, 1, text.len(), room / 2, room - 1] {
        if len < room {
            let (length, before, after) = lent(file, len);
            assert!(length == 0 && before == after, "{len} of {room}");
        }
    }
    for len in [room, room + 1, room + 64, 2 * room] {
        let (length, before, after) = lent(file, len);
        let listed = &after[MARGIN..][..length.min(len)];
        assert_eq!(String::from_utf8_lossy(listed), text);
        assert!(
            before[..MARGIN] == after[..MARGIN] && before[MARGIN + len..] == after[MARGIN + len..]
        );
    }
    9
}

#[test]
fn listings_of_good_files() {
    let mut rng = Rng::new(341);
    let mut compared = 0;
    let long =
        [calm_air, turbulence, gusts, any].map(|kind| file_of_samples(&kind(&mut rng, 2_600)));
    let given = examples().map(|(_, file)| file);
    for file in given
        .into_iter()
        .chain(long)
        .chain([calm_file(0), calm_file(1), calm_file(2_600)])
    {
        compared += compare(&file);
    }
    for (n, version) in (0..300).zip(VERSIONS.iter().cycle()) {
        compared += compare(&random_file_in(&mut rng, version, n));
    }
    compared += compare(&calm_file_in(&VERSIONS[1], 2_500));
    println!("compared {compared} listings of good files");
}

#[test]
fn listings_of_damaged_files() {
    let mut rng = Rng::new(342);
    let given = examples().map(|(_, file)| file);
    let mut came = BTreeMap::new();
    let mut compared = 0;
    for _ in 0..6_000 {
        let file = damaged_file(&mut rng, &given);
        compared += compare(&file);
        *came
            .entry(test_file(&file).err().map_or(0, |(number, _)| number))
            .or_insert(0) += 1;
    }
    // longer than any run
    for len in [62_409, 65_007, 65_009, 65_010, 65_535, 65_536, 200_000] {
        for version in &VERSIONS {
            let mut file = calm_file_in(version, version.most);
            file.resize(len, 0);
            compared += compare(&file);
        }
    }
    println!("compared {compared} listings of damaged files, by number {came:?}");
    assert!(came.keys().copied().eq((0..=6).chain(11..=21)));
}

/// What the listing does not need of its buffer stays as it was.
#[test]
fn the_rest_of_the_buffer_stays() {
    let mut rng = Rng::new(343);
    let mut compared = 0;
    let given = examples().map(|(_, file)| file);
    for _ in 0..500 {
        let file = damaged_file(&mut rng, &given);
        let room = LISTING_LINE * test_file(&file).map_or(1, |(_, count)| count + 2);
        for len in [room, room + 100] {
            let (length, before, after) = lent(&file, len);
            assert!(
                before[MARGIN + length..] == after[MARGIN + length..],
                "{length} of {len}"
            );
            compared += 1;
        }
    }
    println!("compared {compared} buffers after their listings");
}
