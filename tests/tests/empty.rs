//! Slices of length 0: what Rust makes of `&[]` and of a buffer's end is answered as the reference answers no bytes, and no byte
//! beside it is touched.

use windshear::{Exchanged, FileTest, Needed, Outcome, Unread};
use windshear_tests::both::Both;
use windshear_tests::files::{calm_file, calm_with, file_of_samples, record_of};
use windshear_tests::gen::CALM;
use windshear_tests::library::{accepted_file, refused, sent_record};
use windshear_tests::reference;

/// Lends each kind of empty slice that there is, and compares the answers; what stands beside it stays.
fn lent<T: PartialEq + std::fmt::Debug>(call: impl Fn(&mut [u8]) -> T, want: T) -> u64 {
    let mut buf: [u8; 8] = [1, 2, 3, 4, 5, 6, 7, 8];
    let before = buf;
    assert_eq!(call(&mut []), want);
    assert_eq!(call(&mut Vec::new()), want);
    for at in [0, 4, 8] {
        assert_eq!(call(&mut buf[at..at]), want, "at {at}");
        assert_eq!(buf, before, "at {at}");
    }
    5
}

/// As `lent`, of slices that are only read.
fn read<T: PartialEq + std::fmt::Debug>(call: impl Fn(&[u8]) -> T, want: T) -> u64 {
    lent(|empty| call(empty), want)
}

/// No file is shorter than 8 bytes, so one of none is refused by 1, with or without room for answers.
#[test]
fn empty_files() {
    let mut compared = 0;
    assert_eq!(reference::test_file(&[]), Err((1, 0)));
    let short = FileTest {
        refusal: 1,
        ..FileTest::default()
    };
    compared += read(windshear::test_file, short);
    for place in [0, 1, usize::MAX] {
        compared += read(
            |file| windshear::read_record(file, place),
            Err(Unread::Refused(1)),
        );
    }
    for len in [0, 1, 10, 26_000] {
        assert_eq!(reference::run(&[], len), Err((1, 0)));
        let mut answers = vec![9; len];
        let before = answers.clone();
        compared += read(
            |file| windshear::run(file, &mut answers.clone()),
            refused(1u8, 0),
        );
        assert_eq!(windshear::run(&[], &mut answers), refused(1u8, 0));
        assert!(answers == before);
    }
    println!("compared {compared} answers to empty files");
}

/// A run of no records has an answer buffer of length 0, and is good; every other run is refused by 7 there, if by nothing before.
#[test]
fn empty_answer_buffers() {
    let mut compared = 0;
    let bad = file_of_samples(&[CALM, reference::Sample { mode: 2, ..CALM }]);
    for (file, number) in [
        (calm_file(0), 0u8),
        (calm_file(1), 7),
        (calm_file(2_600), 7),
        (calm_file(2_601), 5),
        (bad, 7),
        (calm_file(0)[..7].to_vec(), 1),
        (calm_file(1)[..31].to_vec(), 6),
        (vec![], 1),
    ] {
        let want = reference::run(&file, 0);
        assert_eq!(
            want,
            if number == 0 {
                Ok(vec![])
            } else {
                Err((number, 0))
            }
        );
        let outcome = refused(number, 0);
        compared += lent(|answers| windshear::run(&file, answers), outcome);
    }
    let none = calm_file(0);
    assert_eq!(windshear::run(&none, &mut []), Outcome::default());
    assert_eq!(
        windshear::test_file(&none),
        accepted_file(&reference::VERSIONS[0], 0)
    );
    assert_eq!(windshear::read_record(&none, 0), Err(Unread::NoSuchPlace));
    println!("compared {compared} outcomes with empty answer buffers");
}

/// Nothing is written into no bytes: 7, where 5 does not come before it.
#[test]
fn empty_buffers_to_write() {
    let both = Both::new();
    let mut compared = 0;
    for count in [0, 1, 2_600, 2_601, u32::MAX] {
        let number = both.write_header(1, count, 0).unwrap_err();
        assert_eq!(number, if count > 2_600 { 5 } else { 7 });
        compared += lent(|buf| windshear::write_header(1, count, buf), number.into());
    }
    for record in [record_of(&CALM, 0.0), calm_with(9, 2)] {
        assert_eq!(both.write_record(1, &record, 0), Err(7));
        let record = sent_record(&record);
        compared += lent(|buf| windshear::write_record(1, &record, buf), 7);
    }
    println!("compared {compared} answers to empty buffers");
    both.done();
}

/// A text has its header line and a file its header, so neither is empty: 23 and 1. Nothing is written into no bytes: 7, where nothing
/// comes before it, and no listing.
#[test]
fn empty_exchanges() {
    let mut compared = 0;
    let number = |refusal| Exchanged { place: 0, refusal };
    let needs = |refusal| Needed {
        refusal,
        ..Needed::default()
    };
    compared += read(windshear::import_length, needs(23));
    compared += read(windshear::import_text, Err(number(23)));
    compared += read(windshear::export_length, needs(1));
    compared += read(windshear::export_file, Err(number(1)));
    compared += read(windshear::listing, Err(refused(1u8, 0)));
    for len in [0, 8, 64, 1_000] {
        let lends = |call: fn(&[u8], &mut [u8]) -> Exchanged, refusal| {
            read(
                |empty| {
                    let mut output = vec![9; len];
                    let answer = call(empty, &mut output);
                    (answer, output)
                },
                (number(refusal), vec![9; len]),
            )
        };
        compared += lends(windshear::import, 23) + lends(windshear::export, 1);
    }
    for count in [0, 1, 2_600] {
        let file = calm_file(count);
        let mut text = windshear::export_file(&file).unwrap();
        compared += lent(|text| windshear::export(&file, text), number(7));
        compared += lent(|file| windshear::import(&text, file), number(7));
        text.pop();
        let bad = if count == 0 { 23 } else { 24 };
        compared += lent(|file| windshear::import(&text, file), number(bad));
        compared += lent(|listing| windshear::list(&file, listing), 0);
        compared += lent(
            |text| windshear::export(&file[1..], text),
            number(if count == 0 { 1 } else { 2 }),
        );
    }
    println!("compared {compared} answers to empty texts, files and buffers");
}
