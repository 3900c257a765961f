//! The reference and the library under the same calls: each call is made of both, and gives what both give, or fails.

use crate::csv::{self, Refusal};
use crate::files::right_len;
use crate::gen::{numbered, CALM};
use crate::lend::lend;
use crate::library::{
    accepted_file, converted, exchanged, expected, needed, record_bits, refused, refused_file,
    sent, sent_record, state_of, with_entries,
};
use crate::program::listed;
use crate::reference::{self, Answer, Reading, Record, Sample, Unit, WINDOWS};
use std::cell::Cell;
use windshear::{FileTest, Hundredths, Outcome, State, Unread};

/// Makes the calls, and counts the answers, states and buffers that it compared.
#[derive(Default)]
pub struct Both {
    compared: Cell<u64>,
}

impl Both {
    pub fn new() -> Both {
        Both::default()
    }

    fn count(&self, more: u64) {
        self.compared.set(self.compared.get() + more);
    }

    pub fn compared(&self) -> u64 {
        self.compared.get()
    }

    /// Prints the line of a test.
    pub fn done(&self) {
        let compared = self.compared();
        assert!(compared > 0);
        println!(
            "compared {compared} answers, states and buffers of the reference and the library"
        );
    }

    /// Two units that have seen no sample; failures name the list that they are to be told.
    pub fn fresh<'a>(&'a self, list: &'a str) -> Pair<'a> {
        self.pair(list, Unit::new(), State::fresh())
    }

    /// As `fresh`, with two hundred entries in the windows, the newest first.
    pub fn holding<'a>(&'a self, list: &'a str, entries: &[i32]) -> Pair<'a> {
        let state = with_entries(&State::fresh(), 0, entries);
        self.pair(list, Unit::holding(entries), state)
    }

    fn pair<'a>(&'a self, list: &'a str, unit: Unit, state: State) -> Pair<'a> {
        let pair = Pair {
            both: self,
            list,
            offered: 0,
            unit,
            state,
        };
        assert_eq!(pair.state, state_of(&pair.unit), "{list}: at the start");
        self.count(1);
        pair
    }

    /// The answers to a list from fresh, each sample accepted and standing for one frame.
    pub fn play(&self, list: &[Sample]) -> Vec<Answer> {
        let mut pair = self.fresh("played");
        let list = numbered(list, 0, |_| 1);
        list.iter().map(|s| pair.offer(s).unwrap()).collect()
    }

    /// The number that a sample is refused by, or 0.
    pub fn refusal(&self, s: &Sample) -> u8 {
        self.fresh("one").offer(s).err().unwrap_or(0)
    }

    /// The held shear that is shown where the along wind has changed by so much since the sample before.
    pub fn shear(&self, change: i32, vertical: i32, airspeed: i32) -> i32 {
        self.shear_over(change, 1, vertical, airspeed)
    }

    /// The same, so many frames after the sample before.
    pub fn shear_over(&self, change: i32, frames: u16, vertical: i32, airspeed: i32) -> i32 {
        let before = Sample {
            along: -change / 2,
            ..CALM
        };
        let changed = Sample {
            along: before.along + change,
            vertical,
            airspeed,
            frame: frames,
            ..CALM
        };
        let mut pair = self.fresh("changed");
        pair.offer(&before).unwrap();
        pair.offer(&changed).unwrap().shear
    }

    /// A pattern's hundredths, as far as the library's cut, whether it was exact, and whether it was cut.
    pub fn hundredths(&self, bits: u32) -> Option<Hundredths> {
        let found = windshear::hundredths(bits);
        let exact = reference::exact(bits);
        let want = reference::hundredths(bits).zip(exact);
        let want = want.map(|(hundredths, exact)| converted(hundredths, exact));
        assert_eq!(found, want, "{bits:#010x}");
        self.count(1);
        found
    }

    pub fn write_header(&self, version: u32, count: u32, len: usize) -> Result<[u8; 8], u8> {
        let want = reference::write_header(version, count, len);
        lend(
            len,
            |buf| windshear::write_header(version, count, buf),
            want.map_err(u16::from),
        );
        self.count(2);
        want
    }

    pub fn write_record(&self, version: u32, r: &Record, len: usize) -> Result<Vec<u8>, u8> {
        let want = reference::write_record(version, r, len);
        lend(
            len,
            |buf| windshear::write_record(version, &sent_record(r), buf),
            want.as_ref().map_err(|&number| number.into()),
        );
        self.count(2);
        want
    }

    /// A file's own test, which a run with the right answer buffer agrees with.
    pub fn test_file(&self, file: &[u8]) -> FileTest {
        let want = reference::test_file(file);
        let test = match want {
            Ok((version, count)) => accepted_file(&version, count),
            Err((number, place)) => refused_file(number, place as usize),
        };
        let outcome = Outcome {
            refusal: test.refusal,
            place: test.place,
        };
        assert_eq!(windshear::test_file(file), test, "{} bytes", file.len());
        let ran = windshear::run(file, &mut vec![0; right_len(file)]);
        assert_eq!(ran, outcome, "{} bytes", file.len());
        self.count(2);
        test
    }

    /// The record at a place by its bits, its sample, and whether it was exact.
    pub fn read_record(&self, file: &[u8], place: usize) -> Result<Reading, Option<u8>> {
        let want = reference::record_at(file, place);
        let read = windshear::read_record(file, place);
        let bits = read.map(|read| (record_bits(&read.record), read.sample, read.exact));
        let expected = want
            .map(|want| (want.record, sent(&want.sample), want.exact))
            .map_err(|number| number.map_or(Unread::NoSuchPlace, |n| Unread::Refused(n.into())));
        assert_eq!(bits, expected, "place {place} of {} bytes", file.len());
        self.count(1 + u64::from(want.is_ok()));
        want
    }

    pub fn run(&self, file: &[u8], len: usize) -> Result<Vec<u8>, (u8, u32)> {
        let want = reference::run(file, len);
        let outcome = want
            .as_ref()
            .map_err(|&(number, place)| refused(number, place as usize));
        lend(len, |answers| windshear::run(file, answers), outcome);
        // the outcome, and each answer of ten bytes or all that was left as it was
        self.count(1 + want.as_ref().map_or(1, |bytes| bytes.len() as u64 / 10));
        want
    }

    pub fn import_length(&self, text: &[u8]) -> Result<usize, Refusal> {
        let want = csv::import_length(text);
        let found = windshear::import_length(text);
        assert_eq!(found, needed(want), "{}", shown(text));
        self.count(1);
        want
    }

    pub fn import(&self, text: &[u8], len: usize) -> Result<Vec<u8>, Refusal> {
        let want = csv::import(text, len);
        let answer = want.as_ref().map_err(|&refusal| exchanged(refusal));
        lend(len, |file| windshear::import(text, file), answer);
        self.count(2);
        want
    }

    pub fn export_length(&self, file: &[u8]) -> Result<usize, Refusal> {
        let want = csv::export_length(file);
        let found = windshear::export_length(file);
        assert_eq!(found, needed(want), "{} bytes", file.len());
        self.count(1);
        want
    }

    pub fn export(&self, file: &[u8], len: usize) -> Result<Vec<u8>, Refusal> {
        let want = csv::export(file, len);
        let answer = want.as_ref().map_err(|&refusal| exchanged(refusal));
        lend(len, |text| windshear::export(file, text), answer);
        self.count(2);
        want
    }

    /// The listing, by the program on the library's side.
    pub fn listing(&self, file: &[u8]) -> String {
        let text = listed(file);
        assert_eq!(text, reference::listing(file), "{} bytes", file.len());
        self.count(1);
        text
    }
}

/// The start of a text, for a failure.
fn shown(text: &[u8]) -> String {
    let start = &text[..text.len().min(2_000)];
    format!("{} bytes, {}", text.len(), start.escape_ascii())
}

/// The reference's unit and the library's state, told the same samples.
pub struct Pair<'a> {
    both: &'a Both,
    list: &'a str,
    offered: usize,
    pub unit: Unit,
    pub state: State,
}

impl Pair<'_> {
    /// One sample, offered to the library in the plain form and lent. Err is the refusal number.
    pub fn offer(&mut self, s: &Sample) -> Result<Answer, u8> {
        let (list, i) = (self.list, self.offered);
        let answer = self.unit.offer(s);
        let (want, left) = (expected(&answer), state_of(&self.unit));
        let (plain, after) = self.state.offer(sent(s));
        assert_eq!(plain, want, "{list}: answer {i} to {s:?}");
        assert_eq!(after, left, "{list}: state after {i}");
        let lent = self.state.offer_lent(sent(s));
        assert_eq!(lent, want, "{list}: lent answer {i} to {s:?}");
        assert_eq!(self.state, left, "{list}: lent state after {i}");
        self.both.count(4);
        self.offered += 1;
        answer
    }

    /// The sample one frame after the last accepted one.
    pub fn offer_next(&mut self, s: &Sample) -> Result<Answer, u8> {
        let frame = self
            .unit
            .last()
            .map_or(0, |last| last.frame.wrapping_add(1));
        self.offer(&Sample { frame, ..*s })
    }

    /// The lengths of the windows that are met, upward for sign 1, downward for -1.
    pub fn windows_met(&self, sign: i64) -> Vec<usize> {
        let is_met = |&(samples, value): &(usize, i64)| {
            let sum = self.state.entries().take(samples).map(i64::from).sum();
            assert_eq!(self.unit.window_sum(samples), sum, "{}", self.list);
            sign * sum >= samples as i64 * value
        };
        let met = WINDOWS.iter().filter(|w| is_met(w));
        met.map(|w| w.0).collect()
    }
}
