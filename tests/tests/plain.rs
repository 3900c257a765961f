//! The plain program beside the reference, and the library beside the plain program: answers,
//! refusals with their places, totals and untouched buffers.

use std::collections::BTreeMap;
use windshear_tests::examples::examples;
use windshear_tests::files::*;
use windshear_tests::gen::{all_lists, dropped_lists, long_lists, Rng};
use windshear_tests::lend::lend;
use windshear_tests::library::refused;
use windshear_tests::plain::{self, Totals};
use windshear_tests::reference::{self, refusal};

/// What has been compared: runs, answers of ten bytes, totals, how often lamps came on in all; and how
/// often each number came.
#[derive(Default)]
struct Compared {
    runs: u64,
    answers: u64,
    totals: u64,
    red: u64,
    amber: u64,
    came: BTreeMap<u8, u64>,
}

impl Compared {
    /// One run, with an answer buffer so long.
    fn run(&mut self, file: &[u8], len: usize) {
        let mut totals = None;
        let run = |answers: &mut [u8]| {
            let ran = plain::run(file, answers);
            totals = ran.ok();
            ran.err().unwrap_or_default()
        };
        let ((number, place), bytes) = lend(len, run, reference::run(file, len));
        let want = match totals {
            Some(_) => Ok(bytes),
            None => Err(refused(number, place as usize)),
        };
        lend(len, |answers| windshear::run(file, answers), want);
        if number != 7 {
            let last = match totals {
                Some(Totals { red, amber }) => format!("red {red} amber {amber}"),
                None => format!("refused {number} at {place}"),
            };
            assert_eq!(reference::listing(file).lines().last(), Some(&*last));
        }
        self.runs += 1;
        if let Some(totals) = totals {
            self.answers += len as u64 / 10;
            self.totals += 1;
            self.red += u64::from(totals.red);
            self.amber += u64::from(totals.amber);
        }
        *self.came.entry(number).or_default() += 1;
    }

    /// Prints the line, and tests that exactly these numbers came, at least so many runs and answers, and
    /// lamps of both kinds.
    fn done(&self, what: &str, numbers: impl IntoIterator<Item = u8>, runs: u64, answers: u64) {
        let compared = self.runs + self.answers + self.totals;
        println!(
            "compared {compared} outcomes, answers and totals of {} {what}: red {} amber {}, by number {:?}",
            self.runs, self.red, self.amber, self.came
        );
        assert!(self.red > 500 && self.amber > 500);
        assert!(self.came.keys().copied().eq(numbers));
        assert!(self.runs >= runs && self.answers >= answers);
    }
}

/// Every list that fits a file: as it is, its accepted samples alone, and these damaged.
#[test]
fn lists_as_files() {
    let mut rng = Rng::new(70);
    let [mut whole, mut accepted, mut damaged] = [(); 3].map(|()| Compared::default());
    for (_, list) in all_lists().iter().filter(|(_, list)| list.len() <= 2_600) {
        let file = file_of_samples(list);
        whole.run(&file, right_len(&file));
        let good = list.iter().filter(|s| refusal(s) == 0);
        let records = good.map(|s| record_of(s, within_half(&mut rng)));
        let mut file = file_of(&records.collect::<Vec<_>>());
        for len in [0, 10, right_len(&file) + 1, right_len(&file)] {
            accepted.run(&file, len);
        }
        damage(&mut rng, &mut file);
        damaged.run(&file, some_len(&mut rng, &file));
    }
    whole.done("files of lists", (0..=0).chain(11..=20), 5_500, 1_500_000);
    accepted.done("files of accepted samples", [0, 7], 22_000, 1_500_000);
    damaged.done(
        "damaged files of lists",
        (0..=7).chain(11..=20),
        5_500,
        500_000,
    );
}

/// The stored examples, then short files and examples at random, damaged.
#[test]
fn damaged_files() {
    let mut rng = Rng::new(71);
    let mut compared = Compared::default();
    let kept = examples().map(|(_, file)| file);
    for file in &kept {
        compared.run(file, right_len(file));
    }
    for _ in 0..40_000 {
        let file = damaged_file(&mut rng, &kept);
        compared.run(&file, some_len(&mut rng, &file));
    }
    compared.done("damaged files", (0..=7).chain(11..=21), 40_005, 300_000);
}

/// Every list as lone samples; a refused one leaves the unit as it was.
#[test]
fn lone_samples() {
    let (mut lists, mut compared) = (0u64, 0u64);
    let all = all_lists().into_iter().chain(dropped_lists());
    for (name, list) in all.chain(long_lists()) {
        let (mut unit, mut want) = (plain::Unit::new(), reference::Unit::new());
        for (i, s) in list.iter().enumerate() {
            let before = unit.clone();
            let answer = unit.offer(s);
            assert_eq!(answer, want.offer(s), "{name}: answer {i} to {s:?}");
            assert!(answer.is_ok() || unit == before, "{name}: refused {i}");
            compared += 1;
        }
        lists += 1;
    }
    println!("compared {compared} answers of {lists} lists of lone samples");
    assert!(lists > 3_000 && compared > 1_000_000);
}

/// Floats of every sign and exponent, and the ties with their neighbours: only odd eighths of a knot are ties.
#[test]
fn hundredths() {
    let odd = (1..=100_001).step_by(2).map(|eighths| eighths as f32 / 8.0);
    let ties = odd.flat_map(|knots| [knots.to_bits(), (-knots).to_bits()]);
    let near = ties.flat_map(|bits| [bits - 1, bits, bits + 1]);
    let mut compared = 0u64;
    for bits in near.chain(float_patterns(&mut Rng::new(72))) {
        let cut = |h: i128| h.clamp(i32::MIN.into(), i32::MAX.into()) as i32;
        let found = plain::hundredths(f32::from_bits(bits));
        match reference::hundredths(bits) {
            Some(want) => assert_eq!(found, cut(want), "{bits:#010x}"),
            None => assert!(found.unsigned_abs() > 60_000, "{bits:#010x}"),
        }
        compared += 1;
    }
    println!("compared {compared} hundredths of floats");
    assert!(compared > 8_300_000);
}
