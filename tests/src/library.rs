//! The library's types from the reference's.

use crate::csv::Refusal;
use crate::reference::{self, Version, WINDOWS};
use windshear::{
    Answer, Core, Exchanged, FileTest, Hundredths, Needed, Outcome, Record, Sample, State, Sums,
};

/// The sample as the library takes it.
pub fn sent(s: &reference::Sample) -> Sample {
    Sample {
        frame: s.frame,
        ..Sample::from(s.fields())
    }
}

/// The answer that the reference's answer stands for.
pub fn expected(answer: &Result<reference::Answer, u8>) -> Answer {
    match *answer {
        Ok(a) => Answer {
            refusal: 0,
            alert: a.alert.into(),
            voice: a.voice.into(),
            guidance: a.guidance.into(),
            command: a.command,
            shear: a.shear,
        },
        Err(n) => Answer {
            refusal: n.into(),
            alert: 0,
            voice: 0,
            guidance: 0,
            command: 0,
            shear: 0,
        },
    }
}

/// The outcome of a run that is refused.
pub fn refused(number: impl Into<u16>, place: usize) -> Outcome {
    Outcome {
        refusal: number.into(),
        place: place as u16,
    }
}

/// The test of a file that is refused.
pub fn refused_file(number: impl Into<u16>, place: usize) -> FileTest {
    let Outcome { refusal, place } = refused(number, place);
    FileTest {
        refusal,
        place,
        ..FileTest::default()
    }
}

/// The test of a file that is accepted.
pub fn accepted_file(version: &Version, count: usize) -> FileTest {
    FileTest {
        count: count as u16,
        version: version.number,
        ..FileTest::default()
    }
}

/// The sums in the windows' order.
pub fn sums([s200, s180, s160, s140, s120, s100]: [i64; 6]) -> Sums {
    Sums {
        s200,
        s180,
        s160,
        s140,
        s120,
        s100,
    }
}

/// And back.
pub fn in_order(sums: &Sums) -> [i64; 6] {
    let Sums {
        s200,
        s180,
        s160,
        s140,
        s120,
        s100,
    } = *sums;
    [s200, s180, s160, s140, s120, s100]
}

/// The sum of each window, anew from the entries, the newest first.
pub fn summed(entries: &[i32]) -> Sums {
    let sum = |samples| entries[..samples].iter().map(|&entry| i64::from(entry));
    sums(WINDOWS.map(|(samples, _)| sum(samples).sum()))
}

/// The entries of a ring, the newest first.
pub fn entries(state: &State) -> Vec<i32> {
    let mut entries = state.held.to_vec();
    entries.rotate_left(state.core.place.into());
    entries
}

/// The state with other entries, the newest first, from a place on, each window summed anew; the rest as it was.
pub fn with_entries(state: &State, place: usize, entries: &[i32]) -> State {
    let mut held: [i32; 200] = entries.try_into().unwrap();
    held.rotate_right(place);
    let core = Core {
        sums: summed(entries),
        place: place as u16,
        ..state.core
    };
    State { held, core }
}

/// The state that the reference's unit stands for, each counter up to where it stops. The newest entry
/// stands one place further back for each frame that the accepted samples stand for.
pub fn state_of(unit: &reference::Unit) -> State {
    let stop = |n: u64, at: u64| n.min(at) as u16;
    let place = (200 - unit.frames() as usize % 200) % 200;
    let last = unit.last();
    let mut held = unit.last_entries(200);
    held.rotate_right(place);
    State {
        held: held.try_into().unwrap(),
        core: Core {
            sums: sums(WINDOWS.map(|(samples, _)| unit.window_sum(samples))),
            along: last.map_or(0, |s| s.along),
            mode: last.map_or(0, |s| s.mode),
            command: unit.command(),
            seen: last.is_some().into(),
            red: stop(unit.red_lit_for(), 60),
            amber: stop(unit.amber_lit_for(), 60),
            voice: stop(unit.voice_since(), 73),
            guidance: unit.guidance_counted().map_or(0, |n| n as u16 + 1),
            place: place as u16,
            frame: last.map_or(0, |s| s.frame),
        },
    }
}

/// The record with its floats by their bits.
pub fn sent_record(r: &reference::Record) -> Record {
    Record {
        along: f32::from_bits(r.along),
        vertical: f32::from_bits(r.vertical),
        airspeed: f32::from_bits(r.airspeed),
        height: r.height,
        pitch: r.pitch,
        stall: r.stall,
        climb: r.climb,
        vs1: r.vs1,
        mode: r.mode,
        deselect: r.deselect,
        frame: r.frame,
    }
}

/// And back.
pub fn record_bits(r: &Record) -> reference::Record {
    reference::Record {
        along: r.along.to_bits(),
        vertical: r.vertical.to_bits(),
        airspeed: r.airspeed.to_bits(),
        height: r.height,
        pitch: r.pitch,
        stall: r.stall,
        climb: r.climb,
        vs1: r.vs1,
        mode: r.mode,
        deselect: r.deselect,
        frame: r.frame,
    }
}

/// What a float is converted to that has these hundredths: they are cut at a million either way, and it
/// is said where they were.
pub fn converted(hundredths: i128, exact: bool) -> Hundredths {
    let number = hundredths.clamp(-1_000_000, 1_000_000);
    Hundredths {
        number: number as i32,
        exact,
        cut: number != hundredths,
    }
}

/// What the output of an import or an export needs.
pub fn needed(length: Result<usize, Refusal>) -> Needed {
    let (refusal, place) = length.err().unwrap_or_default();
    Needed {
        length: length.unwrap_or(0),
        place,
        refusal: refusal.into(),
    }
}

/// The answer to an import or an export that is refused.
pub fn exchanged((refusal, place): Refusal) -> Exchanged {
    Exchanged {
        place,
        refusal: refusal.into(),
    }
}
