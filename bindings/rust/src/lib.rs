//! The proved windshear unit and its run files, their listings and their exchange with spreadsheets, for Rust programs. Every function takes every
//! value: what is out of range is refused by its number.
//!
//! It is for x86-64 Linux only: it links target/staticlib/libhost.a, which `./staticlib host` writes.
//!
//! Twenty frames make a second. The host numbers them with 16 bits that go round, and each sample carries its number: see [`Sample::frame`].
//!
//! ```
//! use windshear::{refusal, Alert, Sample, State};
//!
//! // Five seconds at 140 kt in a downdraft of 29.4 kt, a shear of 0.2100, light the red lamp.
//! let sample = Sample { vertical: -2_940, airspeed: 14_000, height: 400, stall: 20_000, vs1: 10_000, mode: 1, ..Sample::default() };
//! let mut state = State::fresh();
//! for frame in 0..99 {
//!     assert_eq!(state.offer_lent(Sample { frame, ..sample }).lamp(), Ok(Alert::None));
//! }
//! assert_eq!(state.offer_lent(Sample { frame: 99, ..sample }).lamp(), Ok(Alert::Red));
//! // A refused sample says nothing of the lamps: red is still lit.
//! assert_eq!(state.offer_lent(Sample { frame: 100, along: 20_001, ..sample }).lamp(), Err(refusal::ALONG));
//! // Its frame was not taken: the next sample may have the same number, and the one after it may not.
//! assert_eq!(state.offer_lent(Sample { frame: 100, ..sample }).lamp(), Ok(Alert::Red));
//! assert_eq!(state.offer_lent(Sample { frame: 100, ..sample }).lamp(), Err(refusal::FRAMES));
//! ```

// a public field without its unit and range is refused where warnings are errors
#![warn(missing_docs)]

mod tidy;
pub use tidy::{tidy, Tidied};

/// The bytes of a run file's header. A file is a header and then its records: those of version 1, as here, stand for one frame each; those of version 2
/// carry their frame number (see [`RECORD_SIZE_2`]).
///
/// ```
/// use windshear::{refusal, run, test_file, write_header, write_record, Outcome, Record};
/// use windshear::{ANSWER_SIZE, HEADER_SIZE, MAX_RECORDS, RECORD_SIZE};
///
/// let record = Record { airspeed: 140.0, vs1: 10_000, ..Record::default() };
/// let mut file = vec![0; HEADER_SIZE + RECORD_SIZE * MAX_RECORDS];
/// let (header, records) = file.split_at_mut(HEADER_SIZE);
/// assert_eq!(write_header(1, MAX_RECORDS as u32 + 1, header), refusal::COUNT);
/// assert_eq!(write_header(1, MAX_RECORDS as u32, header), 0);
/// for bytes in records.chunks_mut(RECORD_SIZE) {
///     assert_eq!(write_record(1, &record, bytes), 0);
/// }
/// assert_eq!(usize::from(test_file(&file).count), MAX_RECORDS);
/// let mut answers = vec![1; ANSWER_SIZE * MAX_RECORDS];
/// assert_eq!(run(&file, &mut answers), Outcome::default());
/// assert!(answers.iter().all(|&byte| byte == 0));
/// ```
pub const HEADER_SIZE: usize = 8;
/// The bytes of a version 1 run file's record.
pub const RECORD_SIZE: usize = 24;
/// The greatest count of records that a version 1 run file may have.
pub const MAX_RECORDS: usize = 2_600;
/// The bytes of a version 2 run file's record, the last two its frame number.
///
/// ```
/// use windshear::{refusal, run, test_file, write_header, write_record, Outcome, Record, ANSWER_SIZE, HEADER_SIZE, MAX_FRAMES, RECORD_SIZE_2};
///
/// // Six records in a downdraft, 20 frames from each to the next: the first stands for one frame, the others for five seconds, and red comes on.
/// let mut record = Record { vertical: -29.4, airspeed: 140.0, height: 400, stall: 20_000, vs1: 10_000, frame: 65_500, ..Record::default() };
/// let mut file = [0; HEADER_SIZE + 6 * RECORD_SIZE_2];
/// let (header, records) = file.split_at_mut(HEADER_SIZE);
/// assert_eq!(write_header(3, 6, header), refusal::VERSION);
/// assert_eq!(write_header(2, 6, header), 0);
/// for bytes in records.chunks_mut(RECORD_SIZE_2) {
///     assert_eq!(write_record(2, &record, bytes), 0);
///     // after 65,535 comes 0
///     record.frame = record.frame.wrapping_add(MAX_FRAMES);
/// }
/// let test = test_file(&file);
/// assert_eq!((test.refusal, test.version, test.count), (0, 2, 6));
/// let mut answers = [0; 6 * ANSWER_SIZE];
/// assert_eq!(run(&file, &mut answers), Outcome::default());
/// assert!(answers.chunks(ANSWER_SIZE).map(|answer| answer[0]).eq([0, 0, 0, 0, 0, 2]));
/// // The last record a frame later: 21 elapsed are one too many.
/// file[HEADER_SIZE + 6 * RECORD_SIZE_2 - 2] += 1;
/// assert_eq!(run(&file, &mut answers), Outcome { refusal: refusal::FRAMES, place: 5 });
/// ```
pub const RECORD_SIZE_2: usize = 26;
/// The greatest count of records that a version 2 run file may have.
pub const MAX_RECORDS_2: usize = 2_500;
/// The most frames that a sample may stand for.
pub const MAX_FRAMES: u16 = 20;
/// The bytes that [`run`] writes for each record. An [`Answer`] is another thing, and larger.
pub const ANSWER_SIZE: usize = 10;
/// The bytes of room that [`list`] asks for each line of a listing; no line is longer.
pub const LISTING_LINE: usize = 64;
/// A held shear is cut to between minus this and this as it enters the windows; in hundred-thousandths: see [`State`].
pub const ENTRY_LIMIT: i32 = 34_500;
/// A float's hundredths are cut to between minus this and this, which is 10,000.00 kt: see [`Hundredths`]. That is beyond every range, so the floats
/// of a record that is accepted are never cut.
pub const HUNDREDTHS_LIMIT: i32 = 1_000_000;

/// One sample, which stands for the frames since the last accepted one; twenty frames make a second. A field may hold any value; each says what is
/// accepted. The default is all zeros, and is refused.
#[repr(C)]
#[derive(Clone, Copy, Debug, Default, PartialEq, Eq)]
pub struct Sample {
    /// along wind, 0.01 kt, tailwind positive: -20,000 to 20,000
    pub along: i32,
    /// vertical wind, 0.01 kt, up positive: -10,000 to 10,000
    pub vertical: i32,
    /// true airspeed, 0.01 kt: 6,000 to 60,000
    pub airspeed: i32,
    /// height above ground, ft: -20 to 5,000
    pub height: i32,
    /// pitch, 0.001 degree: -30,000 to 30,000
    pub pitch: i32,
    /// stall-warning pitch, 0.001 degree: -10,000 to 30,000
    pub stall: i32,
    /// climb, ft/min: -10,000 to 10,000
    pub climb: i32,
    /// stall speed Vs1, 0.01 kt: 5,000 to 30,000
    pub vs1: i32,
    /// 0 take-off, 1 approach
    pub mode: i32,
    /// 1 when the pilot cancels, else 0
    pub deselect: i32,
    /// The host's frame number, of 16 bits that go round: after 65,535 comes 0.
    ///
    /// The sample stands for the frames elapsed since the last accepted one, the difference of the two numbers: 1 to [`MAX_FRAMES`], so that the host may
    /// drop some, and else it is refused by [`refusal::FRAMES`] (the same number again is 0 frames, one that goes back is many). The first stands for
    /// one frame, whatever its number. The change of along wind is divided over the frames, and the shear enters the windows that many times and is
    /// judged once; lamps, voice and the end of guidance count in frames, as they stand at the sample's last, and the command may move 75 for each.
    ///
    /// A sample refused by [`refusal::FRAMES`] is as if never offered, and the kept number stays: a host that has fallen more than 20 frames behind is
    /// refused until it takes a fresh state, or the number comes round.
    ///
    /// ```
    /// use windshear::{refusal, Sample, State};
    ///
    /// let sample = Sample { airspeed: 14_000, height: 400, vs1: 10_000, ..Sample::default() };
    /// let mut state = State::fresh();
    /// let mut offer = |frame, along| state.offer_lent(Sample { frame, along, ..sample });
    /// assert_eq!(offer(65_530, 0).refusal, 0);
    /// // 20 kt more after 20 frames, of which 19 were dropped, are 1 kt in each.
    /// assert_eq!((offer(14, 2_000).shear, offer(15, 2_100).shear), (104_917, 104_917));
    /// // The same number, 21 frames and one back; then 20.
    /// assert_eq!([15, 36, 14].map(|frame| offer(frame, 2_100).refusal), [refusal::FRAMES; 3]);
    /// assert_eq!(offer(35, 2_100).refusal, 0);
    /// ```
    pub frame: u16,
}

impl From<[i32; 10]> for Sample {
    /// The ten fields in 01's order, and frame number 0.
    fn from([along, vertical, airspeed, height, pitch, stall, climb, vs1, mode, deselect]: [i32; 10]) -> Sample {
        Sample { along, vertical, airspeed, height, pitch, stall, climb, vs1, mode, deselect, frame: 0 }
    }
}

/// The running sums: each the sum of the newest so many entries of a [`State`]'s ring. One that is not is refused by [`refusal::STATE`].
#[repr(C)]
#[derive(Clone, Copy, Debug, Default, PartialEq, Eq)]
pub struct Sums {
    /// of the newest 200, the whole ring
    pub s200: i64,
    /// of the newest 180
    pub s180: i64,
    /// of the newest 160
    pub s160: i64,
    /// of the newest 140
    pub s140: i64,
    /// of the newest 120
    pub s120: i64,
    /// of the newest 100
    pub s100: i64,
}

impl Sums {
    /// The sums of these entries, the newest first: those missing are 0, and those after the first 200 enter no sum.
    pub fn of(entries: impl IntoIterator<Item = i32, IntoIter: Clone>) -> Sums {
        let entries = entries.into_iter().map(i64::from);
        let newest = |samples| entries.clone().take(samples).sum();
        Sums { s200: newest(200), s180: newest(180), s160: newest(160), s140: newest(140), s120: newest(120), s100: newest(100) }
    }
}

/// What the unit keeps from sample to sample, beside the ring. A field outside its range, or a counter above 600, is refused by [`refusal::STATE`].
#[repr(C)]
#[derive(Clone, Copy, Debug, PartialEq, Eq)]
pub struct Core {
    /// the sums of the ring's entries
    pub sums: Sums,
    /// the last accepted sample's along wind, 0.01 kt: -20,000 to 20,000
    pub along: i32,
    /// the last accepted sample's mode: 0 or 1
    pub mode: i32,
    /// the command, 0.001 degree: -30,000 to 27,000; 0 while guidance is off
    pub command: i32,
    /// counter: 0 while no sample has been accepted, else 1
    pub seen: u16,
    /// counter: frames for which red has been lit, the one where it came on being the first, up to 60; 0: dark
    pub red: u16,
    /// counter: the same for amber
    pub amber: u16,
    /// counter: frames since the voice was given, the first one included, up to 73; 0: none since the last mode change
    pub voice: u16,
    /// counter: 0 is off; else one more than the frames in a row that have counted towards its end
    pub guidance: u16,
    /// where the newest entry stands in the ring: 0 to 199
    pub place: u16,
    /// the last accepted sample's frame number, any; 0 while there is none. It is no counter
    pub frame: u16,
}

/// The unit's state, which the host keeps: it is returned or lent from sample to sample. An entry outside its range is refused by [`refusal::STATE`].
///
/// Its entries are what entered the windows in the last two hundred frames, 0 before the first: the held shear of the sample that stands for each,
/// which the unit cuts to between -[`ENTRY_LIMIT`] and [`ENTRY_LIMIT`], so that one sharp gust by itself lights no lamp; [`Answer::shear`] is not cut.
/// They are a ring: the newest stands at `core.place`, each older one a place further on, and after place 199 comes place 0. The next entry is written
/// one place back, over the oldest, and is the newest then: from the fresh state the first one goes to place 199. A sample that stands for three frames
/// writes three. States that differ only in how far the ring is turned are not equal, but stand for the same history: every sample gets the same answer
/// from them.
///
/// A host may build a state of its own, from any place on. To have the unit's own history it cuts each held shear as the unit does: an entry that a
/// state holds is summed as it stands, up to 50,000,000. With `seen` left at 0 the next sample would be taken as the first, with no change of along
/// wind, and stand for one frame whatever its number; with 1, `along`, `mode` and `frame` are those of the sample that entered the newest:
///
/// ```
/// use windshear::{Sample, State, Sums, ENTRY_LIMIT};
///
/// let last = Sample { along: 2_000, vertical: -2_940, airspeed: 14_000, height: 400, stall: 20_000, vs1: 10_000, mode: 1, ..Sample::default() };
/// let last = Sample { frame: 65_535, ..last };
/// // The shears as they were answered: a gust, and then five seconds in a downdraft.
/// let mut newest_first = [21_000; 101];
/// newest_first[100] = 2_098_349;
/// let newest_first = newest_first.map(|shear| shear.clamp(-ENTRY_LIMIT, ENTRY_LIMIT));
/// let mut state = State::fresh();
/// state.core.seen = 1;
/// state.core.along = last.along;
/// state.core.mode = last.mode;
/// state.core.frame = last.frame;
/// state.core.place = 198;
/// for (i, entry) in newest_first.into_iter().enumerate() {
///     state.held[(198 + i) % 200] = entry;
/// }
/// state.core.sums = Sums::of(newest_first);
/// // Another gust, a frame later: the answer shows it whole, and its entry is cut.
/// let answer = state.offer_lent(Sample { along: 4_000, frame: 0, ..last });
/// assert_eq!((answer.refusal, answer.alert, answer.shear), (0, 2, 2_119_349));
/// assert_eq!(state.core.place, 197);
/// assert!(state.entries().take(2).eq([ENTRY_LIMIT, 21_000]) && state.entries().skip(101).take(2).eq([ENTRY_LIMIT, 0]));
/// assert_eq!(state.core.sums, Sums::of(state.entries()));
/// ```
#[repr(C)]
#[derive(Clone, Copy, Debug, PartialEq, Eq)]
pub struct State {
    /// the ring: entries in hundred-thousandths, -50,000,000 to 50,000,000; [`State::entries`] reads it
    pub held: [i32; 200],
    /// the rest of the state
    pub core: Core,
}

/// The refusal numbers, in the order tested, but for [`import`] and [`export`], which say their own. 0 refuses nothing; [`meaning`] says a number in
/// words.
pub mod refusal {
    /// file shorter than [`HEADER_SIZE`](crate::HEADER_SIZE)
    pub const SHORT: u16 = 1;
    /// mark is not `WSR`
    pub const MARK: u16 = 2;
    /// version is neither 1 nor 2; of a file to be exported, not 1
    pub const VERSION: u16 = 3;
    /// sixth byte is not zero
    pub const ZERO: u16 = 4;
    /// count above [`MAX_RECORDS`](crate::MAX_RECORDS), in version 2 above [`MAX_RECORDS_2`](crate::MAX_RECORDS_2); or a text of more than
    /// `MAX_RECORDS` samples
    pub const COUNT: u16 = 5;
    /// length is not [`HEADER_SIZE`](crate::HEADER_SIZE) + [`RECORD_SIZE`](crate::RECORD_SIZE) × count, in version 2 with
    /// [`RECORD_SIZE_2`](crate::RECORD_SIZE_2)
    pub const LENGTH: u16 = 6;
    /// lent buffer has the wrong length
    pub const BUFFER: u16 = 7;
    /// the state does not pass: an entry, a counter, the command, the last along wind, the last mode or the place out of range, or a sum that is not its window's
    pub const STATE: u16 = 8;
    /// along wind of a sample, of a record or of a text's line out of range, or a float that is not finite
    pub const ALONG: u16 = 11;
    /// vertical wind out of range, or a float that is not finite
    pub const VERTICAL: u16 = 12;
    /// true airspeed out of range, or a float that is not finite
    pub const AIRSPEED: u16 = 13;
    /// height above ground out of range
    pub const HEIGHT: u16 = 14;
    /// pitch out of range
    pub const PITCH: u16 = 15;
    /// stall-warning pitch out of range
    pub const STALL: u16 = 16;
    /// climb out of range
    pub const CLIMB: u16 = 17;
    /// stall speed Vs1 out of range
    pub const VS1: u16 = 18;
    /// mode is neither 0 nor 1
    pub const MODE: u16 = 19;
    /// deselect is neither 0 nor 1
    pub const DESELECT: u16 = 20;
    /// elapsed frames are not 1 to [`MAX_FRAMES`](crate::MAX_FRAMES): see [`Sample::frame`](crate::Sample::frame)
    pub const FRAMES: u16 = 21;
    /// header line of a text is wrong
    pub const CSV_HEADER: u16 = 23;
    /// a line or a field of a text is malformed
    pub const CSV_LINE: u16 = 24;
}

/// What a number of [`refusal`] means, in words.
///
/// ```
/// use std::collections::HashSet;
/// use windshear::{meaning, refusal};
///
/// assert_eq!(meaning(refusal::MARK), "the mark is not WSR");
/// assert_eq!(meaning(refusal::CSV_LINE), "a line or a field is malformed");
/// // Each of the 21 numbers has words of its own; 0 refuses nothing, and 9 is no number of ours.
/// let words: HashSet<_> = (0..=9).chain(11..=21).chain([23, 24]).map(meaning).collect();
/// assert_eq!(words.len(), 21 + 2);
/// assert_eq!([0, 9].map(meaning), ["nothing is refused", "no such refusal number"]);
/// ```
pub fn meaning(number: u16) -> &'static str {
    match number {
        0 => "nothing is refused",
        refusal::SHORT => "the file is shorter than 8 bytes",
        refusal::MARK => "the mark is not WSR",
        refusal::VERSION => "the version is neither 1 nor 2",
        refusal::ZERO => "the sixth byte is not zero",
        refusal::COUNT => "there are more than 2,600 samples, or 2,500 in version 2",
        refusal::LENGTH => "the length is not 8 + 24 x count, or 8 + 26 x count in version 2",
        refusal::BUFFER => "the lent buffer has the wrong length",
        refusal::STATE => "the state does not pass",
        refusal::ALONG => "along wind out of range, or not a finite number",
        refusal::VERTICAL => "vertical wind out of range, or not a finite number",
        refusal::AIRSPEED => "true airspeed out of range, or not a finite number",
        refusal::HEIGHT => "height above ground out of range",
        refusal::PITCH => "pitch out of range",
        refusal::STALL => "stall-warning pitch out of range",
        refusal::CLIMB => "climb out of range",
        refusal::VS1 => "stall speed Vs1 out of range",
        refusal::MODE => "mode is neither 0 nor 1",
        refusal::DESELECT => "deselect is neither 0 nor 1",
        refusal::FRAMES => "elapsed frames are not 1 to 20",
        refusal::CSV_HEADER => "the header line is wrong",
        refusal::CSV_LINE => "a line or a field is malformed",
        _ => "no such refusal number",
    }
}

/// Which lamp is lit.
#[derive(Clone, Copy, Debug, PartialEq, Eq)]
pub enum Alert {
    /// both are dark
    None,
    /// amber: red is dark
    Amber,
    /// red: amber is dark
    Red,
}

/// What a sample is answered. `refusal` is 0 where it was accepted; else the other fields are 0.
///
/// **A refused answer has `alert` 0, though a lamp may be lit, and it stays lit.** Whoever shows `alert` looks at `refusal` first, or asks [`Answer::lamp`].
#[repr(C)]
#[derive(Clone, Copy, Debug, PartialEq, Eq)]
pub struct Answer {
    /// 0, or a number of [`refusal`]: 8, or 11 to 21
    pub refusal: u16,
    /// 0 none, 1 amber, 2 red, where `refusal` is 0
    pub alert: u16,
    /// the voice's cycle, 1, 2 or 3; 0 for none
    pub voice: u16,
    /// 1 where the command is shown, else 0
    pub guidance: u16,
    /// the command, 0.001 degree: -30,000 to 27,000; 0 while guidance is off
    pub command: i32,
    /// held shear, hundred-thousandths, not cut: -50,000,000 to 50,000,000
    pub shear: i32,
}

#[repr(C)]
struct Offered {
    answer: Answer,
    state: State,
}

/// A record of a run file: its speeds in knots, kept bit for bit; its other fields as in a [`Sample`]. The default is all zeros, and is refused.
///
/// Of a float its [`hundredths`] are tested, so 200.0 is accepted as along wind and 200.125 is not; one that is not finite is refused.
#[repr(C)]
#[derive(Clone, Copy, Debug, Default, PartialEq)]
pub struct Record {
    /// along wind, kt, tailwind positive: hundredths -20,000 to 20,000
    pub along: f32,
    /// vertical wind, kt, up positive: hundredths -10,000 to 10,000
    pub vertical: f32,
    /// true airspeed, kt: hundredths 6,000 to 60,000
    pub airspeed: f32,
    /// height above ground, ft: -20 to 5,000
    pub height: i16,
    /// pitch, 0.001 degree: -30,000 to 30,000
    pub pitch: i16,
    /// stall-warning pitch, 0.001 degree: -10,000 to 30,000
    pub stall: i16,
    /// climb, ft/min: -10,000 to 10,000
    pub climb: i16,
    /// stall speed Vs1, 0.01 kt: 5,000 to 30,000
    pub vs1: u16,
    /// 0 take-off, 1 approach
    pub mode: u8,
    /// 1 when the pilot cancels, else 0
    pub deselect: u8,
    /// version 2: the host's frame number, any (see [`Sample::frame`]); version 1 has none: 0 where it was read, not written
    pub frame: u16,
}

/// What a run is answered.
#[repr(C)]
#[derive(Clone, Copy, Debug, Default, PartialEq, Eq)]
pub struct Outcome {
    /// 0 where the file was run; or a number of [`refusal`]: 1 to 7, or 11 to 21
    pub refusal: u16,
    /// for 11 to 21 the first bad record's place from 0; else 0
    pub place: u16,
}

/// A file's own test.
#[repr(C)]
#[derive(Clone, Copy, Debug, Default, PartialEq, Eq)]
pub struct FileTest {
    /// 0 where [`run`] would run the file; or a number of [`refusal`]: 1 to 6, or 11 to 21
    pub refusal: u16,
    /// for 11 to 21 the first bad record's place from 0; else 0
    pub place: u16,
    /// how many records the file has, 0 to [`MAX_RECORDS`] or, in version 2, [`MAX_RECORDS_2`], where `refusal` is 0; else 0
    pub count: u16,
    /// the file's version, 1 or 2, where `refusal` is 0; else 0
    pub version: u16,
}

/// What the output of an import or an export needs, by [`import_length`] and [`export_length`].
#[repr(C)]
#[derive(Clone, Copy, Debug, Default, PartialEq, Eq)]
pub struct Needed {
    /// the output's exact length in bytes, where `refusal` is 0; else 0
    pub length: usize,
    /// for 11 to 20 the first bad line's or record's place from 0, in a long text above 65,535 too; else 0
    pub place: usize,
    /// 0, or a number of [`refusal`]: of a text 23, 24, 11 to 20 or 5; of a file 1 to 6, or 11 to 20
    pub refusal: u16,
}

/// What an import or an export is answered.
#[repr(C)]
#[derive(Clone, Copy, Debug, Default, PartialEq, Eq)]
pub struct Exchanged {
    /// for 11 to 20 the first bad line's or record's place from 0, in a long text above 65,535 too; else 0
    pub place: usize,
    /// 0 where the output was written; or a number of [`refusal`], as in [`Needed`], or 7
    pub refusal: u16,
}

/// Why no record is read.
#[derive(Clone, Copy, Debug, PartialEq, Eq)]
pub enum Unread {
    /// the file has no record at that place
    NoSuchPlace,
    /// the number of [`refusal`] that refuses the file, 1 to 6, or the record at that place, 11 to 20; never 21, which is of two records
    Refused(u16),
}

/// A record that was read, by [`read_record`].
///
/// A cataloguer can list by `exact` which records had exact hundredths in the file, and learn from [`hundredths`] which float was rounded; README has
/// the lines.
#[derive(Clone, Copy, Debug, PartialEq)]
pub struct Reading {
    /// the record as the file has it, its floats bit for bit
    pub record: Record,
    /// the sample that a run takes it as; its frame number is the record's, or in version 1 its place
    pub sample: Sample,
    /// whether all three floats were exact hundredths; else one at least was rounded: see [`Hundredths`]
    pub exact: bool,
}

/// What a finite float becomes, by [`hundredths`].
///
/// It is exact where 100 times its exact value is a whole number; else it was rounded. As floats are binary, those that are exact are the whole
/// quarters of a knot: 140.25 is, and 0.0 and -0.0 are; 140.10 is rounded, as no `f32` is 140.10 and a file has the nearest one; every subnormal is
/// rounded. That a float was rounded is no fault: a sample takes its hundredths.
#[derive(Clone, Copy, Debug, PartialEq, Eq)]
pub struct Hundredths {
    /// 100 times the float's exact value, nearest, ties away from zero; cut to between -[`HUNDREDTHS_LIMIT`] and [`HUNDREDTHS_LIMIT`]
    pub number: i32,
    /// whether it was exact, else rounded: judged by its value, not by the cut, so 3.4e38 is exact
    pub exact: bool,
    /// whether the rounded hundredths are beyond [`HUNDREDTHS_LIMIT`] either way, and were cut to it
    pub cut: bool,
}

#[repr(C)]
struct Found {
    found: u16,
    refusal: u16,
    exact: u16,
    record: Record,
    sample: Sample,
}

#[repr(C)]
struct Converted {
    finite: u16,
    exact: u16,
    cut: u16,
    hundredths: i32,
}

// As crates/host/src/lib.rt has them; a slice there is a pointer, which is not NULL, and its length here.
extern "C" {
    fn windshear_fresh() -> State;
    fn windshear_offer(state: State, sample: Sample) -> Offered;
    fn windshear_offer_lent(state: &mut State, sample: Sample) -> Answer;
    fn windshear_hundredths(bits: u32) -> Converted;
    fn windshear_write_header(version: u32, count: u32, buf: *mut u8, len: usize) -> u16;
    fn windshear_write_record(version: u32, record: Record, buf: *mut u8, len: usize) -> u16;
    fn windshear_test_file(file: *const u8, len: usize) -> FileTest;
    fn windshear_read_record(file: *const u8, len: usize, place: usize) -> Found;
    fn windshear_run(file: *const u8, file_len: usize, answers: *mut u8, len: usize) -> Outcome;
    fn windshear_import_length(text: *const u8, len: usize) -> Needed;
    fn windshear_import(text: *const u8, text_len: usize, file: *mut u8, len: usize) -> Exchanged;
    fn windshear_export_length(file: *const u8, len: usize) -> Needed;
    fn windshear_export(file: *const u8, file_len: usize, text: *mut u8, len: usize) -> Exchanged;
    fn windshear_list(file: *const u8, file_len: usize, listing: *mut u8, len: usize) -> usize;
}

impl State {
    /// The state that has seen no sample.
    pub fn fresh() -> State {
        // SAFETY: the function takes nothing, and every value that it returns is a State.
        unsafe { windshear_fresh() }
    }

    /// A sample offered in the plain form: the answer, and the state after it, which is this one where the sample is refused.
    /// A refused answer says nothing of the lamps: see [`Answer`].
    #[must_use = "the state after the sample is returned, and a refused sample leaves the lamps as they were"]
    pub fn offer(self, sample: Sample) -> (Answer, State) {
        // SAFETY: the function is proved to be defined for every State and every Sample.
        let offered = unsafe { windshear_offer(self, sample) };
        (offered.answer, offered.state)
    }

    /// A sample offered in the lent form: the state is left as the one after it, or as it stood where the sample is refused.
    /// A refused answer says nothing of the lamps: see [`Answer`].
    #[must_use = "a refused sample leaves the lamps as they were"]
    pub fn offer_lent(&mut self, sample: Sample) -> Answer {
        // SAFETY: the function is proved to be defined for every State and every Sample, and to leave a State.
        unsafe { windshear_offer_lent(self, sample) }
    }

    /// The two hundred entries, the newest first. A place off the ring, which is refused by [`refusal::STATE`], is read as its remainder by 200.
    pub fn entries(&self) -> impl Iterator<Item = i32> + Clone + '_ {
        let (oldest, newest) = self.held.split_at(usize::from(self.core.place) % self.held.len());
        newest.iter().chain(oldest).copied()
    }
}

impl Default for State {
    fn default() -> State {
        State::fresh()
    }
}

impl Answer {
    /// The lamp that is lit; or the number that refused the sample, and the lamps are as they were.
    pub fn lamp(&self) -> Result<Alert, u16> {
        match (self.refusal, self.alert) {
            (0, 0) => Ok(Alert::None),
            (0, 1) => Ok(Alert::Amber),
            (0, _) => Ok(Alert::Red),
            (number, _) => Err(number),
        }
    }
}

/// The hundredths that the float of a pattern becomes, whether it was exact and whether it was cut; `None` where it is not finite, and so neither
/// exact nor rounded. A record's floats become its sample's speeds in the same way.
///
/// ```
/// use windshear::{hundredths, Hundredths, HUNDREDTHS_LIMIT};
///
/// let of = |knots: f32| hundredths(knots.to_bits());
/// assert_eq!(of(140.25), Some(Hundredths { number: 14_025, exact: true, cut: false }));
/// // No f32 is 140.10: the nearest one is rounded to its hundredths, as are a tie and the least subnormal.
/// assert_eq!(of(140.10), Some(Hundredths { number: 14_010, exact: false, cut: false }));
/// assert_eq!(of(-0.125), Some(Hundredths { number: -13, exact: false, cut: false }));
/// assert_eq!(hundredths(1), Some(Hundredths { number: 0, exact: false, cut: false }));
/// assert_eq!(of(-0.0), Some(Hundredths { number: 0, exact: true, cut: false }));
/// // The limit itself is not cut. Beyond it a float is exact or rounded all the same.
/// assert_eq!(of(10_000.0), Some(Hundredths { number: HUNDREDTHS_LIMIT, exact: true, cut: false }));
/// assert_eq!(of(10_000.5), Some(Hundredths { number: HUNDREDTHS_LIMIT, exact: true, cut: true }));
/// assert_eq!(of(-10_000.1), Some(Hundredths { number: -HUNDREDTHS_LIMIT, exact: false, cut: true }));
/// assert_eq!(of(f32::MAX), Some(Hundredths { number: HUNDREDTHS_LIMIT, exact: true, cut: true }));
/// assert_eq!([f32::INFINITY, f32::NAN].map(of), [None; 2]);
/// ```
pub fn hundredths(bits: u32) -> Option<Hundredths> {
    // SAFETY: the function is proved to be defined for every pattern, and takes no pointer.
    let converted = unsafe { windshear_hundredths(bits) };
    (converted.finite != 0).then_some(Hundredths {
        number: converted.hundredths,
        exact: converted.exact != 0,
        cut: converted.cut != 0,
    })
}

/// Writes the header of a run file, of version 1 or 2 and of so many records, into [`HEADER_SIZE`] bytes and answers 0; or answers 3, 5 or 7, the first
/// that fits, and the buffer stays as it was.
#[must_use = "where it is not 0, no header was written"]
pub fn write_header(version: u32, count: u32, buf: &mut [u8]) -> u16 {
    // SAFETY: pointer and length are those of a slice that is ours alone during the call; the function
    // is proved to be defined for every version, count and length, and to write nothing outside the slice.
    unsafe { windshear_write_header(version, count, buf.as_mut_ptr(), buf.len()) }
}

/// Writes a record of a run file of version 1 or 2 into [`RECORD_SIZE`] or [`RECORD_SIZE_2`] bytes and answers 0; or answers 3, 7 or 11 to 20, the first
/// that fits, and the buffer stays as it was. 21 is not tested, as there is no record before it: [`test_file`] tests it.
#[must_use = "where it is not 0, no record was written"]
pub fn write_record(version: u32, record: &Record, buf: &mut [u8]) -> u16 {
    // SAFETY: as for `write_header`; the function is defined for every record, whatever its floats.
    unsafe { windshear_write_record(version, *record, buf.as_mut_ptr(), buf.len()) }
}

/// What [`run`] would answer of the file with an answer buffer of the right length, [`ANSWER_SIZE`] bytes a record, and how many records it has and of
/// which version.
#[must_use]
pub fn test_file(file: &[u8]) -> FileTest {
    // SAFETY: pointer and length are those of a slice; the function is proved to be defined for all contents and lengths, and writes nothing.
    unsafe { windshear_test_file(file.as_ptr(), file.len()) }
}

/// The record at a place from 0, as the file has it, with the sample that a run takes it as and whether its floats were exact hundredths; or why
/// there is none to read. Other records of the file may be refused, and this one by its frame number, which is judged by the record before it.
///
/// The samples of a version 1 file are numbered by place, so that offered one by one each stands for one frame, as in its run.
///
/// ```
/// use windshear::{read_record, refusal, write_header, write_record, Record, Unread, HEADER_SIZE, RECORD_SIZE};
///
/// let record = Record { along: -0.0, airspeed: 140.0, height: 400, vs1: 10_000, ..Record::default() };
/// let mut file = [0; HEADER_SIZE + RECORD_SIZE];
/// assert_eq!(write_header(1, 1, &mut file[..HEADER_SIZE]), 0);
/// assert_eq!(write_record(1, &record, &mut file[HEADER_SIZE..]), 0);
/// let read = read_record(&file, 0).unwrap();
/// assert!(read.record == record && read.record.along.is_sign_negative() && read.sample.airspeed == 14_000 && read.exact);
/// assert_eq!(read_record(&file, 1), Err(Unread::NoSuchPlace));
/// assert_eq!(read_record(&file[..31], 0), Err(Unread::Refused(refusal::LENGTH)));
/// ```
pub fn read_record(file: &[u8], place: usize) -> Result<Reading, Unread> {
    // SAFETY: as for `test_file`, and the function is defined for every place.
    let found = unsafe { windshear_read_record(file.as_ptr(), file.len(), place) };
    match (found.found, found.refusal) {
        (0, 0) => Err(Unread::NoSuchPlace),
        (0, number) => Err(Unread::Refused(number)),
        _ => Ok(Reading {
            record: found.record,
            sample: found.sample,
            exact: found.exact != 0,
        }),
    }
}

/// Runs a whole file from the fresh state: [`ANSWER_SIZE`] bytes a record into `answers`, or a refusal, and `answers` stays as it was.
/// The bytes are alert, voice, the command in 2 (signed), the held shear in 4 (signed, not cut), guidance, a zero; the lowest byte first.
/// They do not say whether a record's floats were exact: [`read_record`] does.
///
/// A run of no records is good, and its answers are empty:
///
/// ```
/// use windshear::{refusal, run, write_header, Outcome, HEADER_SIZE};
///
/// let mut file = [0; HEADER_SIZE];
/// assert_eq!(write_header(1, 0, &mut file), 0);
/// assert_eq!(run(&file, &mut []), Outcome::default());
/// assert_eq!(run(&[], &mut []).refusal, refusal::SHORT);
/// ```
#[must_use = "a refused run leaves the answers as they were"]
pub fn run(file: &[u8], answers: &mut [u8]) -> Outcome {
    // SAFETY: pointers and lengths are those of two slices that do not overlap, the second ours alone
    // during the call; the function is proved to be defined for all contents and lengths, to write
    // nothing outside the second and nothing into the first.
    unsafe {
        windshear_run(
            file.as_ptr(),
            file.len(),
            answers.as_mut_ptr(),
            answers.len(),
        )
    }
}

/// The exact length of the run file that [`import`] writes for a text, [`HEADER_SIZE`] + [`RECORD_SIZE`] × its lines of samples; or the refusal that it
/// gives the text whatever the buffer.
#[must_use]
pub fn import_length(text: &[u8]) -> Needed {
    // SAFETY: as for `test_file`.
    unsafe { windshear_import_length(text.as_ptr(), text.len()) }
}

/// Writes the run file of a CSV text (RFC 4180), of version 1, into [`import_length`]'s bytes; or answers a refusal, and `file` stays as it was.
/// [`import_text`] makes the buffer itself.
///
/// The text is one header line with ten names, then a line for each sample with its ten fields in the same order; each line ends in CRLF, the last one
/// too. The header line alone is a run of no records. The names are `along wind`, `vertical wind`, `true airspeed`, `height above ground`, `pitch`,
/// `stall-warning pitch`, `climb`, `stall speed Vs1`, `mode` and `deselect`. The four speeds are in knots, a digit or more, a point and exactly two
/// decimals; the rest are whole, in the units of a [`Sample`]. Each number may have a sign, plus or minus, and any number of leading zeros; a field may
/// be quoted whole, a name too. The file's floats are those nearest the decimals, so that [`read_record`] finds the same hundredths; zero is plus zero.
///
/// It is refused, each over the whole text before the next, by 23; 24; 11 to 20 with the first bad line's place, from 0 after the header line, and the
/// first number that fits it; 5; 7.
#[must_use = "a refused import leaves the file as it was"]
pub fn import(text: &[u8], file: &mut [u8]) -> Exchanged {
    // SAFETY: as for `run`.
    unsafe { windshear_import(text.as_ptr(), text.len(), file.as_mut_ptr(), file.len()) }
}

/// The exact length of the text that [`export`] writes for a run file; or the refusal that it gives the file whatever the buffer.
#[must_use]
pub fn export_length(file: &[u8]) -> Needed {
    // SAFETY: as for `test_file`.
    unsafe { windshear_export_length(file.as_ptr(), file.len()) }
}

/// Writes a run file of version 1 as a CSV text, as [`import`] has it, into [`export_length`]'s bytes; or answers a refusal, and `text` stays as it was.
/// [`export_file`] makes the buffer itself.
///
/// Each speed is written as its hundredths, the rest as they are: no field is quoted, no number has a plus or a needless leading zero, and zero has no
/// minus. It is refused by 1 to 6, version 2 by 3, as a text has no frame numbers; 11 to 20 with the first bad record's place, as [`test_file`] gives it;
/// 7.
#[must_use = "a refused export leaves the text as it was"]
pub fn export(file: &[u8], text: &mut [u8]) -> Exchanged {
    // SAFETY: as for `run`.
    unsafe { windshear_export(file.as_ptr(), file.len(), text.as_mut_ptr(), text.len()) }
}

/// Writes the listing of a run file, as the program `listing` prints it, at the start of `listing` and answers its length. A refused file has one line,
/// `refused N at P`. A buffer that is shorter than the room, [`LISTING_LINE`] bytes for each record and two more lines, or for the one line of a refused
/// file, stays as it was, and 0 is answered. [`listing`] makes the buffer itself.
#[must_use = "where it is 0, nothing was listed; else it is where the listing ends"]
pub fn list(file: &[u8], listing: &mut [u8]) -> usize {
    // SAFETY: as for `run`.
    unsafe { windshear_list(file.as_ptr(), file.len(), listing.as_mut_ptr(), listing.len()) }
}

/// A buffer of the length needed, once it is written; or the refusal.
fn exchanged(needed: Needed, write: impl FnOnce(&mut [u8]) -> Exchanged) -> Result<Vec<u8>, Exchanged> {
    let Needed { length, place, refusal } = needed;
    if refusal != 0 {
        return Err(Exchanged { place, refusal });
    }
    let mut output = vec![0; length];
    match write(&mut output) {
        Exchanged { refusal: 0, .. } => Ok(output),
        refused => Err(refused),
    }
}

/// The run file of a CSV text, by [`import`]; or its refusal.
///
/// ```
/// use windshear::{export_file, import_text, read_record, refusal, Exchanged};
///
/// let names = "along wind,vertical wind,true airspeed,height above ground,pitch,stall-warning pitch,climb,stall speed Vs1,mode,deselect\r\n";
/// let text = format!("{names}20.10,-29.40,140.00,400,5000,20000,-700,100.00,1,0\r\n");
/// let file = import_text(text.as_bytes()).unwrap();
/// assert_eq!(read_record(&file, 0).unwrap().record.along, 20.10);
/// assert_eq!(export_file(&file), Ok(text.clone().into_bytes()));
/// // A quote, a plus and a needless zero are read, and are not written again; nor is a minus before zero.
/// let other = format!("{names}\"+020.10\",-29.40,140.00,400,5000,20000,-700,100.00,1,-0\r\n");
/// assert_eq!(import_text(other.as_bytes()), Ok(file));
/// // Its third line alone is out of range, by its height.
/// let long = text.clone() + "0.00,0.00,140.00,400,0,0,0,100.00,0,0\r\n0.00,0.00,140.00,5001,0,0,0,100.00,0,2\r\n";
/// assert_eq!(import_text(long.as_bytes()), Err(Exchanged { place: 2, refusal: refusal::HEIGHT }));
/// // A line that ends in LF alone is malformed; the header line has its own number.
/// let refused = |text: String| import_text(text.as_bytes()).unwrap_err();
/// assert_eq!(refused(names.to_owned() + &text[names.len()..].replace('\r', "")), Exchanged { place: 0, refusal: refusal::CSV_LINE });
/// assert_eq!(refused(text.replace('\r', "")), Exchanged { place: 0, refusal: refusal::CSV_HEADER });
/// ```
pub fn import_text(text: &[u8]) -> Result<Vec<u8>, Exchanged> {
    exchanged(import_length(text), |file| import(text, file))
}

/// The CSV text of a run file, by [`export`]; or its refusal.
///
/// ```
/// use windshear::{export_file, refusal, write_header, Exchanged, HEADER_SIZE};
///
/// let mut file = [0; HEADER_SIZE];
/// assert_eq!(export_file(&file), Err(Exchanged { place: 0, refusal: refusal::MARK }));
/// assert_eq!(write_header(2, 0, &mut file), 0);
/// assert_eq!(export_file(&file), Err(Exchanged { place: 0, refusal: refusal::VERSION }));
/// assert_eq!(write_header(1, 0, &mut file), 0);
/// let text = String::from_utf8(export_file(&file).unwrap()).unwrap();
/// assert!(text.starts_with("along wind,vertical wind,") && text.ends_with(",mode,deselect\r\n") && text.lines().count() == 1);
/// ```
pub fn export_file(file: &[u8]) -> Result<Vec<u8>, Exchanged> {
    exchanged(export_length(file), |text| export(file, text))
}

/// The listing of a run file, by [`list`]; or what refuses the file, as [`test_file`] gives it.
///
/// ```
/// use windshear::{list, listing, refusal, write_header, Outcome, HEADER_SIZE, LISTING_LINE};
///
/// let mut file = [0; HEADER_SIZE];
/// assert_eq!(listing(&file), Err(Outcome { refusal: refusal::MARK, place: 0 }));
/// // What the listing itself says of it, for which there must be room.
/// let mut line = [b' '; LISTING_LINE];
/// assert_eq!(list(&file, &mut line[..63]), 0);
/// let length = list(&file, &mut line);
/// assert_eq!(&line[..length], b"refused 2 at 0\n");
/// assert_eq!(write_header(1, 0, &mut file), 0);
/// assert_eq!(listing(&file).unwrap(), b"sample shear alert voice command float\nred 0 amber 0\n");
/// ```
pub fn listing(file: &[u8]) -> Result<Vec<u8>, Outcome> {
    let FileTest { refusal, place, count, .. } = test_file(file);
    if refusal != 0 {
        return Err(Outcome { refusal, place });
    }
    let mut listing = vec![0; LISTING_LINE * (usize::from(count) + 2)];
    let length = list(file, &mut listing);
    listing.truncate(length);
    Ok(listing)
}

// README.md's Rust lines are doc tests of this crate.
#[cfg(doctest)]
#[doc = include_str!("../../../README.md")]
struct Readme;

// The layout that the library has, as include/windshear.h states it too.
const _: () = {
    use std::mem::{align_of, offset_of, size_of};
    assert!(size_of::<Sample>() == 44 && offset_of!(Sample, deselect) == 36 && offset_of!(Sample, frame) == 40);
    assert!(size_of::<Sums>() == 48 && offset_of!(Sums, s180) == 8 && offset_of!(Sums, s100) == 40);
    assert!(size_of::<Core>() == 80 && offset_of!(Core, along) == 48 && offset_of!(Core, seen) == 60 && offset_of!(Core, place) == 70);
    assert!(offset_of!(Core, frame) == 72);
    assert!(size_of::<State>() == 880 && offset_of!(State, core) == 800);
    assert!(size_of::<Answer>() == 16 && offset_of!(Answer, command) == 8 && offset_of!(Answer, shear) == 12);
    assert!(size_of::<Offered>() == 896 && offset_of!(Offered, state) == 16);
    assert!(align_of::<State>() == 8 && align_of::<Offered>() == 8);
    assert!(size_of::<Record>() == 28 && offset_of!(Record, height) == 12 && offset_of!(Record, deselect) == 23 && offset_of!(Record, frame) == 24);
    assert!(size_of::<Outcome>() == 4 && offset_of!(Outcome, place) == 2);
    assert!(size_of::<FileTest>() == 8 && offset_of!(FileTest, count) == 4 && offset_of!(FileTest, version) == 6);
    assert!(size_of::<Found>() == 80 && offset_of!(Found, exact) == 4 && offset_of!(Found, record) == 8 && offset_of!(Found, sample) == 36);
    assert!(size_of::<Converted>() == 12 && offset_of!(Converted, exact) == 2 && offset_of!(Converted, cut) == 4);
    assert!(offset_of!(Converted, hundredths) == 8);
    assert!(size_of::<Needed>() == 24 && offset_of!(Needed, place) == 8 && offset_of!(Needed, refusal) == 16);
    assert!(size_of::<Exchanged>() == 16 && offset_of!(Exchanged, refusal) == 8);
};
