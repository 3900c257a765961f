//! States made by hand, to be tried with refusal 8.

use crate::gen::{gusts, Rng};
use crate::library::{entries, in_order, state_of, summed, sums, with_entries};
use crate::reference::{entry, shear, Unit, MOST_FRAMES, WINDOWS};
use crate::waveform::in_band;
use windshear::{Answer, Core, Sample, State};

/// A state, what was done to it, and whether it passes 8.
pub struct Forged {
    pub name: String,
    pub state: State,
    pub passes: bool,
}

/// The farthest that an entry may be from 0.
pub const LIMIT: i32 = 50_000_000;

/// Entries anywhere within their limits.
pub fn random_entries(rng: &mut Rng) -> Vec<i32> {
    (0..200).map(|_| rng.within(-LIMIT, LIMIT)).collect()
}

/// States that pass: the fresh one, one that gusts have left, and one whose entries are random.
pub fn bases() -> [(&'static str, State); 3] {
    let mut rng = Rng::new(80);
    let mut unit = Unit::new();
    for s in gusts(&mut rng, 437) {
        unit.offer(&s).unwrap();
    }
    let gusty = state_of(&unit);
    [
        ("fresh", state_of(&Unit::new())),
        ("gusty", gusty),
        (
            "random",
            with_entries(&gusty, 73, &random_entries(&mut rng)),
        ),
    ]
}

/// Every rule of refusal 8, each base forged in one way.
pub fn forged() -> Vec<Forged> {
    let mut all = Vec::new();
    for (name, base) in bases() {
        let mut put = |what: String, passes, edit: &dyn Fn(&mut State)| {
            let mut state = base;
            edit(&mut state);
            let name = format!("{name}: {what}");
            all.push(Forged {
                name,
                state,
                passes,
            });
        };
        put("as it is".into(), true, &|_| ());
        put_fields(&mut put);
        put_entries(&base, &mut put);
        put_sums(&base, &mut put);
        put_places(&base, &mut put);
    }
    all
}

/// Takes what is done to a state, and whether it passes then.
type Put<'a> = &'a mut dyn FnMut(String, bool, &dyn Fn(&mut State));

/// Gives a counter of a core, to be set.
type Counter = fn(&mut Core) -> &mut u16;

/// Every counter by its name.
pub const COUNTERS: [(&str, Counter); 5] = [
    ("seen", |core| &mut core.seen),
    ("red", |core| &mut core.red),
    ("amber", |core| &mut core.amber),
    ("voice", |core| &mut core.voice),
    ("guidance", |core| &mut core.guidance),
];

/// A counter, or a signed field with its range: its limits, one beyond each, and its type's ends.
fn put_fields(put: Put) {
    for (name, field) in COUNTERS {
        for value in [0, 1, 599, 600, 601, u16::MAX] {
            put(format!("{name} {value}"), value <= 600, &|t| {
                *field(&mut t.core) = value
            });
        }
    }
    // 02, A6: the kept frame number is no counter
    for value in [0, 1, 20, 21, 600, 601, 32_768, u16::MAX] {
        put(format!("frame {value}"), true, &|t| t.core.frame = value);
    }
    let signed: [(&str, fn(&mut State) -> &mut i32, i32, i32); 3] = [
        ("command", |t| &mut t.core.command, -30_000, 27_000),
        ("along", |t| &mut t.core.along, -20_000, 20_000),
        ("mode", |t| &mut t.core.mode, 0, 1),
    ];
    for (name, field, low, high) in signed {
        for value in [i32::MIN, low - 1, low, high, high + 1, i32::MAX] {
            let passes = (low..=high).contains(&value);
            put(format!("{name} {value}"), passes, &|t| *field(t) = value);
        }
    }
}

/// Each entry at its limits, one beyond each and at its type's ends, with the sums made right, so that
/// only the entry decides; and each entry one off without that.
fn put_entries(base: &State, put: Put) {
    for at in 0..200 {
        for value in [i32::MIN, -LIMIT - 1, -LIMIT, LIMIT, LIMIT + 1, i32::MAX] {
            let passes = (-LIMIT..=LIMIT).contains(&value);
            put(format!("held[{at}] {value}"), passes, &|t| {
                t.held[at] = value;
                t.core.sums = summed(&entries(t));
            });
        }
        for off in [-1, 1] {
            // so that only the sums decide
            assert!((base.held[at] + off).abs() <= LIMIT);
            put(format!("held[{at}] off by {off}"), false, &|t| {
                t.held[at] += off
            });
        }
    }
}

/// Each sum off by one or by a power of two, either way, at its type's ends, or another window's.
fn put_sums(base: &State, put: Put) {
    let of_windows = in_order(&base.core.sums);
    for (k, (samples, _)) in WINDOWS.into_iter().enumerate() {
        let right = of_windows[k];
        let off = [1, 1 << 16, 1 << 31, 1 << 32, 1 << 48].into_iter();
        let off = off.flat_map(|off| [right + off, right - off]);
        let values = off.chain([i64::MIN, i64::MAX]).chain(of_windows);
        for value in values {
            let mut of_windows = of_windows;
            of_windows[k] = value;
            put(format!("s{samples} {value}"), value == right, &|t| {
                t.core.sums = sums(of_windows)
            });
        }
    }
}

/// The same ring and sums read from another place: they pass where each sum is its window's there too.
fn put_places(base: &State, put: Put) {
    for place in (0..=256).chain([455, 456, 32_768, 65_335, 65_336, u16::MAX]) {
        let mut there = *base;
        there.core.place = place;
        let passes = place < 200 && summed(&entries(&there)) == base.core.sums;
        put(format!("place {place}"), passes, &|t| t.core.place = place);
    }
}

/// The sample so many frames after the last one that a state has accepted.
pub fn after(state: &State, frames: u16, s: Sample) -> Sample {
    Sample {
        frame: state.core.frame.wrapping_add(frames),
        ..s
    }
}

/// The core after a sample that stands for so many frames, its sums and its place as they were: 01's rules in frames
/// (02, A6), by arithmetic on the counters as include/windshear.h describes them, whatever they say. The conditions are
/// red's and amber's.
fn counted(before: &Core, frames: u16, s: &Sample, conditions: [bool; 2]) -> Core {
    // "Lamps and voice": the counter has the frame of the coming-on, where none had passed
    let lamp = |lit: u16, condition: bool| match lit {
        0 => condition.into(),
        _ if condition || lit - 1 + frames < 60 => (lit + frames).min(60),
        _ => 0,
    };
    let red = lamp(before.red, conditions[0]);
    let amber = match red {
        0 => lamp(before.amber, conditions[1]),
        _ => 0,
    };
    let comes_on = before.red == 0 && red > 0;
    let mode_change = before.seen > 0 && before.mode != s.mode;
    let voice = match before.voice {
        given @ 1.. if !mode_change => (given + frames).min(73),
        _ => comes_on.into(),
    };
    // "Escape pitch": the frames in a row that have counted, and the command before it is cut to the cap
    let counts = s.climb > 0 && s.airspeed * 10 > s.vs1 * 13;
    let guided = match before.guidance {
        0 => comes_on.then_some((counts.into(), s.pitch)),
        n => {
            let most = 75 * i32::from(frames);
            let moved = before.command + (15_000 - before.command).clamp(-most, most);
            Some((if counts { n - 1 + frames } else { 0 }, moved))
        }
    };
    let goes_on = |&(count, _): &(u16, i32)| s.deselect == 0 && count < 600;
    let (guidance, command) = guided.filter(goes_on).map_or((0, 0), |(count, command)| {
        (count + 1, command.min(s.stall).min(27_000))
    });
    Core {
        along: s.along,
        mode: s.mode,
        command,
        seen: 1,
        red,
        amber,
        voice,
        guidance,
        frame: s.frame,
        ..*before
    }
}

/// One sample, so many frames after the last, offered in both forms, against the plain list of the entries: the shear is
/// cut to the newest of them (02, A1), which stand there once for each frame (02, A6), the oldest are gone, each sum is
/// summed anew, the conditions follow those sums, and the lamps, the voice, guidance and the command follow the counters.
pub fn step(state: &mut State, frames: u16, s: Sample) -> Answer {
    let before = *state;
    let s = after(state, frames, s);
    let (answer, after) = before.offer(s);
    assert_eq!(state.offer_lent(s), answer);
    assert_eq!(*state, after);
    let (from, frames) = if before.core.seen == 0 {
        (s.along, 1)
    } else {
        (before.core.along, frames)
    };
    let held = shear(s.along - from, frames, s.vertical, s.airspeed);
    let mut list = vec![entry(held); frames.into()];
    list.extend(entries(&before));
    list.truncate(200);
    let place = usize::from(before.core.place + 200 - frames) % 200;
    let condition = |sign: i64| {
        let mut windows = WINDOWS.iter().zip(in_order(&summed(&list)));
        in_band(s.height)
            && windows.any(|(&(samples, value), sum)| sign * sum >= samples as i64 * value)
    };
    let core = counted(&before.core, frames, &s, [1, -1].map(condition));
    let want = Answer {
        refusal: 0,
        alert: match (core.red, core.amber) {
            (1.., _) => 2,
            (_, 1..) => 1,
            _ => 0,
        },
        voice: match core.voice {
            // three cycles of 24 frames
            n @ 0..=72 => n.div_ceil(24),
            _ => 0,
        },
        guidance: (core.guidance > 0).into(),
        command: core.command,
        shear: held,
    };
    assert_eq!(answer, want, "{:?}, {s:?}", before.core);
    let left = with_entries(&State { core, ..before }, place, &list);
    assert_eq!(after, left, "{:?}, {s:?}", before.core);
    answer
}

/// Frames that a sample may stand for.
pub fn some_frames(rng: &mut Rng) -> u16 {
    rng.within(1, MOST_FRAMES.into()) as u16
}
