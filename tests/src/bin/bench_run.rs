//! A whole run of each of three files of 2,600 records: the library, the plain program and the reference by turns. Then 2,500 records
//! in version 1, in version 2 with one frame each, and in version 2 with 1 to 20 frames each, by turns.
//! With an argument, a shared object that holds an earlier library, today's, that one and the plain program by turns as well; and
//! version 2 by today's beside version 1 by that one.

use std::hint::black_box;
use windshear::Outcome;
use windshear_tests::bench::{medians, report, three_files, three_lists, Earlier};
use windshear_tests::files::samples_in;
use windshear_tests::forged::some_frames;
use windshear_tests::gen::{numbered, Rng};
use windshear_tests::reference::{Sample, VERSIONS};
use windshear_tests::{plain, reference};

fn main() {
    let earlier = std::env::args().nth(1).map(|path| Earlier::open(&path));
    for (name, file) in three_files() {
        measure(name, &file, earlier.as_ref());
    }
    for (name, list) in three_lists(2_500) {
        measure_versions(name, &list, earlier.as_ref());
    }
}

/// A run of a file of 2,500 records by the library.
fn by_library(file: &[u8]) -> impl FnMut() + '_ {
    let mut answers = vec![0; 25_000];
    move || {
        black_box(windshear::run(black_box(file), &mut answers));
    }
}

/// The same by the plain program.
fn by_plain(file: &[u8]) -> impl FnMut() + '_ {
    let mut answers = vec![0; 25_000];
    move || {
        black_box(plain::run(black_box(file), &mut answers)).unwrap();
    }
}

/// 02, A6: what a frame number costs, and what frames do.
fn measure_versions(name: &str, list: &[Sample], earlier: Option<&Earlier>) {
    let mut rng = Rng::new(63);
    let dropped = numbered(list, 0, |_| some_frames(&mut rng));
    let [one, two] = &VERSIONS;
    let files = [(one, list), (two, list), (two, &dropped[..])];
    let files = files.map(|(version, list)| samples_in(version, list));
    for file in &files {
        let (mut answers, mut want) = (vec![0; 25_000], vec![1; 25_000]);
        assert_eq!(windshear::run(file, &mut answers), Outcome::default());
        assert!(plain::run(file, &mut want).is_ok() && want == answers);
    }
    let [mut l1, mut l2, mut l3] = files.each_ref().map(|file| by_library(file));
    let [mut p1, mut p2, mut p3] = files.each_ref().map(|file| by_plain(file));
    let times = medians(401, [&mut l1, &mut l2, &mut l3, &mut p1, &mut p2, &mut p3]);
    let kinds = [
        "version 1",
        "version 2, one frame each",
        "version 2, 1 to 20 frames each",
    ];
    for (i, kind) in kinds.iter().enumerate() {
        let (library, plain) = (times[i], times[3 + i]);
        println!(
            "2,500 records, {name}, {kind}: library {library:.3} ms, {:.1} ns a record, plain {plain:.3} ms; \
             library / version 1 {:.2}, library / plain {:.2}",
            library * 1e6 / 2_500.0,
            library / times[0],
            library / plain
        );
    }
    if let Some(earlier) = earlier {
        let mut answers = vec![0; 25_000];
        assert_eq!(earlier.run(&files[0], &mut answers), Outcome::default());
        let mut before = || {
            black_box(earlier.run(black_box(&files[0]), &mut answers));
        };
        let [now, before] = medians(401, [&mut l2, &mut before]);
        println!(
            "2,500 records, {name}, version 2, one frame each, beside version 1 by the earlier library: \
             now {now:.3} ms, earlier {before:.3} ms; now / earlier {:.2}",
            now / before
        );
    }
}

fn measure(name: &str, file: &[u8], earlier: Option<&Earlier>) {
    let (mut by_library, mut by_plain) = (vec![0; 26_000], vec![1; 26_000]);
    assert_eq!(windshear::run(file, &mut by_library), Outcome::default());
    assert!(plain::run(file, &mut by_plain).is_ok());
    assert!(by_plain == by_library);
    assert!(reference::run(file, 26_000).as_ref() == Ok(&by_library));
    let lit = by_plain.chunks(10).filter(|answer| answer[0] != 0).count();
    assert_eq!(
        lit == 0,
        name == "calm",
        "{name}: {lit} samples with a lamp"
    );

    let mut library = || {
        black_box(windshear::run(black_box(file), &mut by_library));
    };
    let mut plain = || {
        black_box(plain::run(black_box(file), &mut by_plain)).unwrap();
    };
    let mut reference = || {
        black_box(reference::run(black_box(file), 26_000)).unwrap();
    };
    let [by_turns, plain_by_turns, reference_by_turns] =
        medians(201, [&mut library, &mut plain, &mut reference]);
    let what = format!("2,600 records, {name}");
    report(&what, by_turns, plain_by_turns, reference_by_turns);
    if let Some(earlier) = earlier {
        let mut by_earlier = vec![0; 26_000];
        assert_eq!(earlier.run(file, &mut by_earlier), Outcome::default());
        let mut before = || {
            black_box(earlier.run(black_box(file), &mut by_earlier));
        };
        let [now, before, plain] = medians(401, [&mut library, &mut before, &mut plain]);
        println!(
            "{what}, beside the earlier library: now {now:.3} ms, earlier {before:.3} ms, plain {plain:.3} ms; \
             now / plain {:.2}, earlier / plain {:.2}, now / earlier {:.2}",
            now / plain,
            before / plain,
            now / before
        );
    }
    // each alone, one pass straight after another
    let ([library], [plain]) = (medians(201, [&mut library]), medians(201, [&mut plain]));
    println!(
        "{what}, each alone: library {library:.3} ms, plain {plain:.3} ms; library / plain {:.2}",
        library / plain
    );
}
