//! Lists of samples to offer to a unit, the same ones every time.

use crate::reference::{nearest, refusal, Sample, CUT, MOST_FRAMES, RANGES, WINDOWS};
use std::collections::BTreeSet;

/// A splitmix generator.
pub struct Rng(u64);

impl Rng {
    pub fn new(seed: u64) -> Rng {
        Rng(seed)
    }

    pub fn draw(&mut self) -> u64 {
        self.0 = self.0.wrapping_add(0x9e37_79b9_7f4a_7c15);
        let mut z = self.0;
        z = (z ^ (z >> 30)).wrapping_mul(0xbf58_476d_1ce4_e5b9);
        z = (z ^ (z >> 27)).wrapping_mul(0x94d0_49bb_1331_11eb);
        z ^ (z >> 31)
    }

    /// From low to high, both ends in.
    pub fn within(&mut self, low: i32, high: i32) -> i32 {
        low + (self.draw() % (high - low + 1) as u64) as i32
    }

    pub fn one_in(&mut self, n: u64) -> bool {
        self.draw().is_multiple_of(n)
    }

    pub fn pick<T: Copy>(&mut self, from: &[T]) -> T {
        from[self.draw() as usize % from.len()]
    }
}

/// No wind, in the band, nothing that ends guidance.
pub const CALM: Sample = Sample {
    along: 0,
    vertical: 0,
    airspeed: 14_000,
    height: 400,
    pitch: 5_000,
    stall: 20_000,
    climb: -700,
    vs1: 10_000,
    mode: 1,
    deselect: 0,
    frame: 0,
};

/// The list with other frame numbers, from a first one on, each accepted sample so many frames after the one
/// before it as `elapsed` says. What its fields refuse has the number of the one before it.
pub fn numbered(list: &[Sample], first: u16, mut elapsed: impl FnMut(usize) -> u16) -> Vec<Sample> {
    let mut last = None;
    let one = |(i, s): (usize, &Sample)| {
        if refusal(s) == 0 {
            last = Some(last.map_or(first, |last: u16| last.wrapping_add(elapsed(i))));
        }
        Sample {
            frame: last.unwrap_or(first),
            ..*s
        }
    };
    list.iter().enumerate().map(one).collect()
}

/// The list as of a host that drops frames: now and then or at each sample, up to so many, or the most at each.
pub fn dropping(rng: &mut Rng, list: &[Sample]) -> Vec<Sample> {
    let most = rng.pick(&[2, 3, 7, MOST_FRAMES, MOST_FRAMES]);
    let (least, often) = rng.pick(&[(1, 1), (1, 1), (1, 8), (1, 60), (most, 1)]);
    // so that many a short list goes round
    let first = rng.pick(&[0, 65_500]) + rng.within(0, 35) as u16;
    numbered(list, first, |_| match rng.one_in(often) {
        true => rng.within(least.into(), most.into()) as u16,
        false => 1,
    })
}

/// Elapsed frames that 21 refuses.
pub const REFUSED_FRAMES: [u16; 8] = [0, 21, 22, 40, 256, 32_768, 65_516, u16::MAX];

/// `n` calm samples, each one frame after the one before it, then edited.
pub fn series(n: i32, mut edit: impl FnMut(i32, &mut Sample)) -> Vec<Sample> {
    let one = |i| {
        let mut s = Sample {
            frame: i as u16,
            ..CALM
        };
        edit(i, &mut s);
        s
    };
    (0..n).map(one).collect()
}

/// Along wind that steps by so much at so many samples, then edited.
pub fn stepped(
    n: i32,
    steps: &[(i32, i32)],
    mut edit: impl FnMut(i32, &mut Sample),
) -> Vec<Sample> {
    series(n, |i, s| {
        s.along = steps
            .iter()
            .filter(|(at, _)| i >= *at)
            .map(|(_, step)| step)
            .sum();
        edit(i, s);
    })
}

/// A vertical wind whose shear at the calm airspeed is beyond the cut: 71,429, which enters as 34,500.
const STRONG: i32 = 10_000;

/// Stretches of strong vertical wind, then edited: which way each goes (1 costs performance, -1 gains it,
/// 0 is calm), and for how many samples.
pub fn stretches(parts: &[(i32, i32)], mut edit: impl FnMut(i32, &mut Sample)) -> Vec<Sample> {
    let each = |&(way, n): &(i32, i32)| std::iter::repeat_n(way, n as usize);
    let ways: Vec<_> = parts.iter().flat_map(each).collect();
    series(ways.len() as i32, |i, s| {
        s.vertical = -ways[i as usize] * STRONG;
        edit(i, s);
    })
}

/// So many samples at the cut meet no window, and one more meets all six: 60 × 34,500 is below every
/// limit, and 61 × 34,500 below none.
pub const EXPOSURE: i32 = 60;

/// All windows met at `n` samples, upward for sign 1, downward for -1; the height then decides. An
/// exposure goes before them, whose samples are counted below 0.
pub fn met(sign: i32, n: i32, mut edit: impl FnMut(i32, &mut Sample)) -> Vec<Sample> {
    stretches(&[(sign, EXPOSURE + n)], |i, s| edit(i - EXPOSURE, s))
}

/// As `met`, with the condition only at the samples (from 0 on) that `at` names.
pub fn condition_at(
    sign: i32,
    n: i32,
    at: impl Fn(i32) -> bool,
    mut edit: impl FnMut(i32, &mut Sample),
) -> Vec<Sample> {
    met(sign, n, |i, s| {
        s.height = if at(i) { 400 } else { 1_001 };
        edit(i, s);
    })
}

/// The vertical winds and airspeeds that hold a shear: exactly, rounded up to it, rounded down to it.
pub fn plateaus(held: i32) -> Vec<(i32, i32)> {
    let holding = |sign: i64| {
        (6_000..=60_000).find_map(|airspeed| {
            let vertical = -nearest(i128::from(held) * airspeed, 100_000);
            let over = -vertical * 100_000 - i128::from(held) * airspeed;
            let fits = vertical.abs() <= 10_000
                && nearest(-vertical * 100_000, airspeed) == held.into()
                && over.signum() == sign.into();
            fits.then_some((vertical as i32, airspeed as i32))
        })
    };
    [0, -1, 1].into_iter().filter_map(holding).collect()
}

/// `before` calm samples, the last `dip` of them at the cut the other way, then `n` of one shear, then calm.
pub fn plateau(before: i32, dip: i32, n: i32, (vertical, airspeed): (i32, i32)) -> Vec<Sample> {
    let parts = [(0, before - dip), (vertical.signum(), dip), (0, n + 70)];
    stretches(&parts, |i, s| {
        if (before..before + n).contains(&i) {
            (s.vertical, s.airspeed) = (vertical, airspeed);
        }
    })
}

/// Both directions, each with its alert.
pub const WAYS: [(i32, u8); 2] = [(1, 2), (-1, 1)];

/// The test rows of 000: average in hundred-thousandths, samples exposed, and the samples within
/// which the caution or the warning comes, if any.
pub const TEST_ROWS: [(i32, i32, Option<[usize; 2]>); 9] = [
    (2_000, 400, None),
    (4_000, 400, None),
    (10_500, 200, Some([200, 200])),
    (11_660, 180, Some([180, 180])),
    (13_110, 160, Some([160, 160])),
    (14_990, 140, Some([140, 140])),
    (17_480, 120, Some([124, 132])),
    (21_000, 100, Some([114, 124])),
    (27_000, 100, Some([100, 114])),
];

/// The row's alert comes first within its limit and no other comes, `before` samples being calm;
/// or none comes at all.
pub fn meets_row(alerts: &[u8], before: usize, alert: u8, limits: Option<[usize; 2]>) -> bool {
    let first = alerts.iter().position(|&a| a != 0);
    match limits {
        None => first.is_none(),
        Some(limits) => {
            let limit = before + limits[usize::from(alert) - 1];
            first.is_some_and(|at| at < limit) && alerts.iter().all(|a| [0, alert].contains(a))
        }
    }
}

/// Values where something changes, field by field.
const TURNS: [&[i32]; 10] = [
    &[0, 32, 33, -32, -33, 2_000, -2_000],
    &[0, 1, -1, -1_050, -3_450, 3_450, -3_451, 3_451],
    &[10_000, 13_000, 13_001, 14_000, 28_985, 28_986],
    &[0, 49, 50, 400, 1_000, 1_001],
    &[0, 5_000, 14_925, 15_000, 15_075, 27_000, 27_001],
    &[-1, 0, 14_999, 15_000, 15_001, 26_999, 27_000, 27_001],
    &[-1, 0, 1],
    &[9_999, 10_000, 10_001],
    &[0, 1],
    &[0, 0, 0, 0, 0, 1],
];

fn edge(rng: &mut Rng, field: usize) -> i32 {
    let (low, high) = RANGES[field];
    if rng.one_in(2) {
        rng.pick(TURNS[field])
    } else {
        rng.pick(&[low, low + 1, high - 1, high])
    }
}

pub fn random_sample(rng: &mut Rng) -> Sample {
    Sample::from_fields(RANGES.map(|(low, high)| rng.within(low, high)))
}

/// One field's values that are refused.
fn bad_values((low, high): (i32, i32)) -> [i32; 4] {
    [low - 1, high + 1, i32::MIN, i32::MAX]
}

/// A random sample with the named fields made bad.
fn bad_sample(rng: &mut Rng, bad: impl Fn(usize) -> bool) -> Sample {
    let mut fields = random_sample(rng).fields();
    for (i, field) in fields.iter_mut().enumerate().filter(|(i, _)| bad(*i)) {
        *field = rng.pick(&bad_values(RANGES[i]));
    }
    Sample {
        frame: rng.draw() as u16,
        ..Sample::from_fields(fields)
    }
}

/// The list of accepted samples with refused ones before some of them: by their fields, or by their frames.
pub fn with_refused(rng: &mut Rng, list: Vec<Sample>) -> Vec<Sample> {
    let mut all = Vec::new();
    let mut last: Option<u16> = None;
    for s in list {
        while rng.one_in(6) {
            let which = rng.draw() & rng.draw() & 0x3ff | 1 << (rng.draw() % 10);
            let bad = match last {
                Some(last) if rng.one_in(3) => Sample {
                    frame: last.wrapping_add(rng.pick(&REFUSED_FRAMES)),
                    ..random_sample(rng)
                },
                _ => bad_sample(rng, |i| which >> i & 1 == 1),
            };
            all.push(bad);
        }
        last = Some(s.frame);
        all.push(s);
    }
    all
}

/// Lengths of many short lists and some long ones.
fn lengths(rng: &mut Rng, short: usize, long: usize) -> Vec<i32> {
    let short = (0..short).map(|_| rng.within(1, 320)).collect::<Vec<_>>();
    let long = (0..long).map(|_| rng.within(1_501, 2_600));
    short.into_iter().chain(long).collect()
}

/// What a generator has made so far: the rest of the name, and the list.
type Lists = Vec<(String, Vec<Sample>)>;

fn calm(rng: &mut Rng, out: &mut Lists) {
    for (k, n) in lengths(rng, 60, 6).into_iter().enumerate() {
        let list = series(n, |i, s| {
            s.along = i + rng.within(-20, 20);
            s.vertical = rng.within(-250, 250);
            s.height = (3_000 - 2 * i).max(0);
        });
        out.push((k.to_string(), list));
    }
}

/// Calm air: winds that wander by small random changes, which light no lamp.
pub fn calm_air(rng: &mut Rng, n: i32) -> Vec<Sample> {
    let mut along = 0;
    series(n, |_, s| {
        along = i32::clamp(along + rng.within(-20, 20), -20_000, 20_000);
        s.along = along;
        s.vertical = rng.within(-150, 150);
        s.airspeed = rng.within(13_900, 14_100);
    })
}

/// Turbulence: strong random changes of both winds and of the airspeed at every sample, more than half of
/// them beyond the cut. Drafts of some seconds below them light lamps.
pub fn turbulence(rng: &mut Rng, n: i32) -> Vec<Sample> {
    let (mut rough, mut draft) = (40, 0);
    series(n, |_, s| {
        if rng.one_in(150) {
            rough = rng.pick(&[20, 40, 1_080]);
            draft = rng.within(-7_500, 7_500);
        }
        s.along = rng.within(-rough, rough);
        s.vertical = draft + rng.within(-2_500, 2_500);
        s.airspeed = rng.within(12_000, 16_000);
        s.pitch = rng.within(-3_000, 18_000);
    })
}

/// Winds that wander and jump; drafts, modes, heights and climbs that last a while.
pub fn gusts(rng: &mut Rng, n: i32) -> Vec<Sample> {
    let mut now = CALM;
    let mut lift = rng.within(-8_000, 8_000);
    let cancels = rng.one_in(3);
    (0..n)
        .map(|i| {
            now.frame = i as u16;
            now.along += rng.within(-40, 40);
            if rng.one_in(30) {
                now.along += rng.within(-2_600, 2_600);
            }
            now.along = now.along.clamp(-20_000, 20_000);
            if rng.one_in(80) {
                lift = rng.within(-8_000, 8_000);
            }
            now.vertical = lift + rng.within(-100, 100);
            now.airspeed = (now.airspeed + rng.within(-30, 30)).clamp(6_000, 60_000);
            now.height = (now.height + rng.within(-8, 8)).clamp(-20, 5_000);
            if rng.one_in(50) {
                now.height = rng.pick(&[20, 49, 50, 300, 400, 500, 1_000, 1_001]);
            }
            now.pitch = rng.within(-3_000, 18_000);
            if rng.one_in(40) {
                now.stall = rng.within(8_000, 30_000);
            }
            if rng.one_in(300) {
                now.climb = rng.within(-500, 1_500);
            }
            if rng.one_in(90) {
                now.mode = 1 - now.mode;
            }
            now.deselect = (cancels && rng.one_in(80)).into();
            now
        })
        .collect()
}

fn gusty(rng: &mut Rng, out: &mut Lists) {
    for (k, n) in lengths(rng, 500, 16).into_iter().enumerate() {
        out.push((k.to_string(), gusts(rng, n)));
    }
}

/// Every field at random. In some stretches both winds go one way, so that windows are met: the along
/// wind by up to a fiftieth of the rest of its range.
pub fn any(rng: &mut Rng, n: i32) -> Vec<Sample> {
    let (mut along, mut way) = (0, rng.within(-1, 1));
    let one = |i| {
        if rng.one_in(120) {
            way = rng.within(-1, 1);
        }
        let mut s = random_sample(rng);
        s.frame = i as u16;
        if way != 0 {
            let rest = 20_000 * way - along;
            s.along = along + rest * rng.within(0, 100) / 5_000;
            s.vertical = -way * s.vertical.abs();
        }
        along = s.along;
        s
    };
    (0..n).map(one).collect()
}

fn random(rng: &mut Rng, out: &mut Lists) {
    for (k, n) in lengths(rng, 300, 10).into_iter().enumerate() {
        out.push((k.to_string(), any(rng, n)));
    }
}

/// Fields at the ends of their ranges and at turning values, each kept for a while, the speeds for longer.
fn edges(rng: &mut Rng, out: &mut Lists) {
    for (k, n) in lengths(rng, 400, 10).into_iter().enumerate() {
        let (winds, rest) = (rng.pick(&[1, 5, 150, 400]), rng.pick(&[1, 5, 40, 150]));
        let mut fields = std::array::from_fn(|i| edge(rng, i));
        let list = series(n, |_, s| {
            for (i, field) in fields.iter_mut().enumerate() {
                if rng.one_in(if i < 3 { winds } else { rest }) {
                    *field = edge(rng, i);
                }
            }
            *s = Sample {
                frame: s.frame,
                ..Sample::from_fields(fields)
            };
        });
        out.push((k.to_string(), list));
    }
}

/// Each field at each bad value, then many at once among gusts.
fn refused(rng: &mut Rng, out: &mut Lists) {
    for (i, &range) in RANGES.iter().enumerate() {
        for value in bad_values(range) {
            let mut list = condition_at(1 - 2 * (i as i32 % 2), 160, |i| i % 70 == 10, |_, _| ());
            for place in [120, 81, 80, 79, 70, 11, 10, 1, 0, 1 - EXPOSURE, -EXPOSURE] {
                let mut fields = random_sample(rng).fields();
                fields[i] = value;
                list.insert((EXPOSURE + place) as usize, Sample::from_fields(fields));
            }
            out.push((format!("field {i} is {value}"), list));
        }
    }
    for (k, n) in lengths(rng, 250, 6).into_iter().enumerate() {
        let list = gusts(rng, n);
        out.push((format!("among gusts {k}"), with_refused(rng, list)));
    }
    out.push((
        "all".into(),
        (0..40).map(|k| bad_sample(rng, |i| i >= k % 10)).collect(),
    ));
}

/// Rounding: ties of the vertical term, and of the whole fraction with a step of 28,019.
fn ties(rng: &mut Rng, out: &mut Lists) {
    for k in 0..60 {
        let list = series(100, |_, s| {
            s.airspeed = rng.pick(&[6_400, 8_000, 16_000, 24_000, 32_000, 40_000, 48_000, 56_000]);
            s.vertical = rng.pick(&[1, 2, 3, 4, 7, 21]) * rng.within(-470, 470);
            s.along = if k % 2 == 0 { 0 } else { rng.within(-900, 900) };
        });
        out.push((k.to_string(), list));
    }
    for sign in [1, -1] {
        for m in -20..20 {
            let list = series(5, |i, s| {
                s.along = sign * if i < 2 { -14_000 } else { 14_019 };
                s.vertical = sign * (53 + 63 * m);
                s.airspeed = 20_160;
            });
            out.push((format!("step {sign} {m}"), list));
        }
    }
}

/// Constant shear at each threshold and just beside it, both ways, with a dip before or none.
fn thresholds(_: &mut Rng, out: &mut Lists) {
    for (samples, value) in WINDOWS {
        for beside in [-2, -1, 0, 1] {
            for pair in plateaus(value as i32 + beside) {
                for (before, dip) in [(0, 0), (37, 0), (3, 1), (150, 70)] {
                    for sign in [1, -1] {
                        let list =
                            plateau(before, dip, samples as i32 + 25, (sign * pair.0, pair.1));
                        out.push((
                            format!("{value} {beside} {pair:?} {before} {dip} {sign}"),
                            list,
                        ));
                    }
                }
            }
        }
        let pair = plateaus(value as i32)[0];
        for sign in [1, -1] {
            for longer in [-1, 0, 1] {
                let list = plateau(20, 0, samples as i32 + longer, (sign * pair.0, pair.1));
                out.push((format!("{value} for {longer} more {sign}"), list));
            }
            for weak in [0, 1, samples / 2, samples - 1] {
                let mut list = plateau(20, 0, samples as i32, (sign * pair.0, pair.1));
                list[20 + weak].vertical -= list[20 + weak].vertical.signum();
                out.push((format!("{value} weak at {weak} {sign}"), list));
            }
        }
    }
}

/// One step of along wind, or the same step in two parts; alone, or after exposures that meet no window
/// yet. A step of 27 after one of 60 samples meets the first windows, one of 29 all, one of 33 is cut.
fn steps(_: &mut Rng, out: &mut Lists) {
    for size in [26, 27, 28, 29, 32, 33, 1_999, 2_000, 20_000] {
        for way in [1, -1] {
            let step = way * size;
            for before in [0, EXPOSURE - 1, EXPOSURE] {
                for second in [0, 1, 30, 119, 120, 160] {
                    let at = before + 5;
                    let parts = [
                        (0, -step / 2),
                        (at, step / 3),
                        (at + second, step - step / 3),
                    ];
                    let list = stepped(before + 230, &parts, |i, s| {
                        if i < before {
                            s.vertical = -way * STRONG;
                        }
                    });
                    out.push((format!("{step} after {before} in two {second}"), list));
                }
            }
        }
    }
}

/// Many steps of along wind in either direction, over drafts whose shear is near that of a window.
fn kicks(rng: &mut Rng, out: &mut Lists) {
    for k in 0..300 {
        let (mut along, mut height, mut mode) = (0, 400, 1);
        let mut draft = 0;
        let n = rng.within(150, 450);
        let list = series(n, |i, s| {
            if i == 0 || rng.one_in(150) {
                let (_, value) = rng.pick(&WINDOWS);
                draft = rng.pick(&[1, -1]) * value as i32 / 10 + rng.within(-40, 40);
            }
            (s.vertical, s.airspeed) = (-draft, 10_000);
            if rng.one_in(25) {
                let kick = rng.pick(&[20, 33, 2_000, 4_000, 16_000]) * rng.pick(&[1, -1]);
                along = i32::clamp(along + kick, -20_000, 20_000);
            }
            if rng.one_in(40) {
                height = rng.pick(&[400, 400, 400, 49, 50, 1_000, 1_001]);
            }
            if rng.one_in(70) {
                mode = 1 - mode;
            }
            (s.along, s.height, s.mode) = (along, height, mode);
        });
        out.push((k.to_string(), list));
    }
}

/// Windows met, heights at and across the ends of the band.
fn heights(rng: &mut Rng, out: &mut Lists) {
    let ends = [-20, 0, 49, 50, 51, 999, 1_000, 1_001, 5_000];
    for sign in [1, -1] {
        for height in ends {
            out.push((
                format!("{sign} at {height}"),
                met(sign, 90, |_, s| s.height = height),
            ));
        }
        for (from, rate) in [(1_060, -1), (-9, 1), (1_100, -7), (0, 7)] {
            let list = met(sign, 200, |i, s| s.height = (from + rate * i).max(-20));
            out.push((format!("{sign} from {from} by {rate}"), list));
        }
        for k in 0..60 {
            let mut height = 400;
            let stay = rng.pick(&[1, 10, 45]) as u64;
            let list = met(sign, 250, |_, s| {
                if rng.one_in(stay) {
                    height = rng.pick(&ends);
                }
                s.height = height;
            });
            out.push((format!("{sign} random {k}"), list));
        }
    }
}

/// The condition twice, so many samples apart, or for so many samples.
fn hold(_: &mut Rng, out: &mut Lists) {
    for sign in [1, -1] {
        for k in 0..=130 {
            let twice = condition_at(sign, 220, |i| i == 10 || i == 10 + k, |_, _| ());
            out.push((format!("{sign} again after {k}"), twice));
            let long = condition_at(
                sign,
                220,
                |i| (10..=10 + k).contains(&i) || i == 150,
                |_, _| (),
            );
            out.push((format!("{sign} for {k} more"), long));
        }
    }
}

/// An exposure one way and another the other way: red then amber, or amber then red. The band is entered
/// at the start, or late, so that the lamp's hold lasts until the other condition comes.
fn both(_: &mut Rng, out: &mut Lists) {
    for sign in [1, -1] {
        for gap in (0..=204).step_by(6) {
            for (first, second) in [(120, 85), (70, 130)] {
                for late in [0, 30, 58] {
                    let parts = [(-sign, first), (0, gap), (sign, second), (0, 70)];
                    let list = stretches(&parts, |i, s| {
                        s.height = if late == 0 || i >= first + late {
                            400
                        } else {
                            1_001
                        };
                    });
                    out.push((format!("{sign} {gap} {first} {late}"), list));
                }
            }
        }
    }
}

/// After an exposure at the cut, the least shear of the next sample that meets each window: what is left
/// of its limit.
pub fn least_after_exposure() -> [i32; 6] {
    WINDOWS.map(|(samples, value)| samples as i32 * value as i32 - EXPOSURE * CUT)
}

/// An exposure beyond the cut after 20 calm samples, then a sample of another shear, then calm.
pub fn one_more(sign: i32, (vertical, airspeed): (i32, i32)) -> Vec<Sample> {
    stretches(&[(0, 20), (sign, EXPOSURE), (0, 70)], |i, s| {
        if i == 20 + EXPOSURE {
            (s.vertical, s.airspeed) = (sign * vertical, airspeed);
        }
    })
}

/// Flat exposures around the cut, made by the vertical wind or by the along wind, around the 61 samples
/// that meet all windows at the cut; and the last of these weaker, around what meets each window.
fn cuts(_: &mut Rng, out: &mut Lists) {
    for sign in [1, -1] {
        let least = BTreeSet::from(least_after_exposure());
        for held in least.into_iter().flat_map(|least| least - 1..=least) {
            for pair in plateaus(held) {
                out.push((
                    format!("{held} last by {pair:?} {sign}"),
                    one_more(sign, pair),
                ));
            }
        }
        for n in [EXPOSURE - 1, EXPOSURE, EXPOSURE + 1, EXPOSURE + 2, 100] {
            for held in [-600, -2, -1, 0, 1, 2, 600].map(|beside| CUT + beside) {
                for (vertical, airspeed) in plateaus(held) {
                    let list = plateau(20, 0, n, (sign * vertical, airspeed));
                    out.push((format!("{held} by {vertical} {airspeed} {n} {sign}"), list));
                }
            }
            for change in [32, 33, 34, 390] {
                let list = series(20 + n + 70, |i, s| {
                    s.along = sign * (change * (i - 19).clamp(0, n) - 19_500);
                });
                out.push((format!("by change {change} {n} {sign}"), list));
            }
        }
    }
}

/// A mode change at each offset from the coming-on at sample 20 after the exposure, then again, or not.
fn modes(_: &mut Rng, out: &mut Lists) {
    let patterns: [fn(i32) -> bool; 5] = [
        |d| d == 0,
        |d| d == 0 || d == 61,
        |d| d == 0 || d == 72,
        |d| d == 0 || d == 90,
        |d| d >= 0,
    ];
    for (k, pattern) in patterns.iter().enumerate() {
        for offset in -2..=92 {
            for back in [200, 1] {
                let list = condition_at(
                    1,
                    190,
                    |i| pattern(i - 20),
                    |i, s| {
                        s.mode = (offset..offset + back).contains(&(i - 20)).into();
                    },
                );
                out.push((format!("{k} at {offset} back {back}"), list));
            }
        }
    }
}

/// Deselect at each offset from the coming-on at sample 20 after the exposure, for one or more samples.
fn deselects(_: &mut Rng, out: &mut Lists) {
    for offset in (-2..=4).chain([30, 59, 60, 61, 62, 89, 90, 91]) {
        for stay in [1, 2, 100] {
            for again in [0, 61, 90] {
                let list = condition_at(
                    1,
                    200,
                    |i| i == 20 || i == 20 + again,
                    |i, s| {
                        s.deselect = (offset..offset + stay).contains(&(i - 20)).into();
                    },
                );
                out.push((format!("at {offset} for {stay} again {again}"), list));
            }
        }
    }
}

/// Climbs to the 600th counting sample, broken or not, with a coming-on near the end.
fn climbs(_: &mut Rng, out: &mut Lists) {
    let breaks: [fn(&mut Sample); 4] = [
        |s| s.climb = 0,
        |s| s.climb = -10_000,
        |s| s.airspeed = 13_000,
        |s| s.vs1 = 10_770,
    ];
    for again in [0, 598, 599, 600, 601, 640] {
        let rising = |n, edit: &dyn Fn(i32, &mut Sample)| {
            condition_at(
                1,
                n,
                |i| i == 10 || i == 10 + again,
                |i, s| {
                    (s.climb, s.airspeed) = (1, if i % 3 == 0 { 13_001 } else { 14_000 });
                    edit(i - 10, s);
                },
            )
        };
        for (k, make) in breaks.iter().enumerate() {
            for offset in [-1, 0, 1, 300, 598, 599, 600] {
                let list = rising(1_600, &|d, s| {
                    if d == offset {
                        make(s)
                    }
                });
                out.push((format!("again {again} break {k} at {offset}"), list));
            }
        }
        for offset in [597, 598, 599, 600] {
            let list = rising(700, &|d, s| s.deselect = (d == offset).into());
            out.push((format!("again {again} deselect at {offset}"), list));
        }
    }
}

/// Pitch and stall-warning pitch at the start, another stall-warning pitch later.
fn caps(rng: &mut Rng, out: &mut Lists) {
    let stalls = [
        -10_000, -1, 0, 12_000, 14_999, 15_000, 20_000, 26_999, 27_000, 27_001, 30_000,
    ];
    for pitch in [
        -30_000, -10_000, -1, 0, 14_925, 14_999, 15_000, 15_001, 15_075, 26_999, 27_000, 27_001,
        30_000,
    ] {
        for stall in stalls {
            let later = rng.pick(&stalls);
            let list = met(1, 130, |i, s| {
                s.pitch = pitch;
                s.stall = if (20..80).contains(&i) { later } else { stall };
            });
            out.push((format!("{pitch} {stall} {later}"), list));
        }
    }
    for k in 0..150 {
        let mut stall = rng.pick(&stalls);
        let list = met(1, 600, |_, s| {
            if rng.one_in(30) {
                stall = if rng.one_in(2) {
                    rng.pick(&stalls)
                } else {
                    rng.within(-10_000, 30_000)
                };
            }
            s.pitch = rng.within(-30_000, 30_000);
            s.stall = stall;
        });
        out.push((format!("random {k}"), list));
    }
}

/// A generator adds its lists.
type Generator = fn(&mut Rng, &mut Lists);

/// Every generator by its name.
pub const GENERATORS: [(&str, Generator); 17] = [
    ("calm", calm),
    ("gusty", gusty),
    ("random", random),
    ("edges", edges),
    ("refused", refused),
    ("ties", ties),
    ("thresholds", thresholds),
    ("steps", steps),
    ("kicks", kicks),
    ("heights", heights),
    ("hold", hold),
    ("both", both),
    ("cuts", cuts),
    ("modes", modes),
    ("deselects", deselects),
    ("climbs", climbs),
    ("caps", caps),
];

/// All lists, each under its generator's name.
pub fn all_lists() -> Vec<(String, Vec<Sample>)> {
    let mut all = Vec::new();
    for (seed, (name, make)) in GENERATORS.iter().enumerate() {
        let mut lists = Lists::new();
        make(&mut Rng::new(seed as u64), &mut lists);
        all.extend(
            lists
                .into_iter()
                .map(|(rest, list)| (format!("{name}: {rest}"), list)),
        );
    }
    all
}

/// Some of all lists, as of a host that drops frames, with refused samples among their own where these are all
/// accepted. So lamps, voices and counts of every kind jump past their ends.
pub fn dropped_lists() -> Vec<(String, Vec<Sample>)> {
    let mut rng = Rng::new(600);
    let mut dropped = Vec::new();
    for (name, list) in all_lists().into_iter().step_by(4) {
        let mut list = dropping(&mut rng, &list);
        if list.iter().all(|s| refusal(s) == 0) {
            list = with_refused(&mut rng, list);
        }
        dropped.push((format!("dropped: {name}"), list));
    }
    dropped
}

/// The accepted samples of each of `long_lists`: a hundred turns of a ring of two hundred, or more.
pub const LONG: i32 = 20_000;

/// Makes so many samples.
type Make = fn(&mut Rng, i32) -> Vec<Sample>;

/// Lists of `LONG` accepted samples, with refused ones among them. Of each kind, a second one drops frames.
pub fn long_lists() -> Vec<(String, Vec<Sample>)> {
    let makes: [(&str, Make); 4] = [
        ("calm", calm_air),
        ("turbulent", turbulence),
        ("gusty", gusts),
        ("random", any),
    ];
    let mut rng = Rng::new(100);
    let mut lists = Vec::new();
    for (name, make) in makes {
        let list = make(&mut rng, LONG);
        let dropped = dropping(&mut rng, &list);
        for (name, list) in [
            (format!("long: {name}"), list),
            (format!("long: {name}, dropped"), dropped),
        ] {
            lists.push((name, with_refused(&mut rng, list)));
        }
    }
    lists
}
