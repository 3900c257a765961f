//! The listing program beside the reference's listing: many files, good and damaged.

use windshear_tests::both::Both;
use windshear_tests::files::{calm_file_in, file_of_samples, samples_in};
use windshear_tests::gen::{all_lists, dropped_lists, Rng};
use windshear_tests::reference::{Unit, VERSIONS};

#[test]
fn every_listing_is_the_references() {
    let both = Both::new();
    let mut rng = Rng::new(23);
    let (mut red, mut amber, mut exact, mut rounded) = (0, 0, 0, 0);
    let ones = all_lists().into_iter().step_by(5);
    let ones = ones.map(|(_, list)| file_of_samples(&list));
    let dropped = dropped_lists().into_iter().step_by(4).map(|(_, mut list)| {
        let mut unit = Unit::new();
        list.retain(|s| unit.offer(s).is_ok());
        samples_in(&VERSIONS[1], &list)
    });
    for mut file in ones.chain(dropped).filter(|file| file.len() <= 65_008) {
        let text = both.listing(&file);
        red += text.matches(" red ").count();
        amber += text.matches(" amber 0 ").count();
        exact += text.matches(" exact\n").count();
        rounded += text.matches(" rounded\n").count();
        if !file.is_empty() {
            let at = rng.draw() as usize % file.len();
            file[at] ^= 1 << (rng.draw() % 8);
            both.listing(&file);
            file.truncate(at);
            both.listing(&file);
        }
    }
    for length in [
        0, 7, 8, 62_407, 62_408, 62_409, 62_410, 65_007, 65_008, 65_009, 65_010, 70_000,
    ] {
        both.listing(&vec![0; length]);
        for version in &VERSIONS {
            let mut whole = calm_file_in(version, version.most);
            whole.resize(length, 0);
            both.listing(&whole);
        }
    }
    println!(
        "of the lines, {red} are red and {amber} amber, {exact} are exact and {rounded} rounded"
    );
    assert!(red > 30_000 && amber > 10_000);
    assert!(exact > 100_000 && rounded > 100_000);
    both.done();
}
