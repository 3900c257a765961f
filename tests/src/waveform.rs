//! 02, A4: waveforms of held shear over the test rows of 000, the winds that hold them, the runs of them through the library,
//! and the exact judgement of their averages.

use crate::both::Both;
use crate::files::samples_in;
use crate::gen::{Rng, TEST_ROWS};
use crate::library::sent;
use crate::reference::{nearest, shear, Sample, CUT, RANGES, VERSIONS};

/// A test row of 000: the average as held, the samples exposed, and the samples within which the caution and the warning come,
/// if any.
#[derive(Clone, Copy, Debug, PartialEq, Eq)]
pub struct Row {
    pub value: i32,
    pub samples: usize,
    pub limits: Option<[usize; 2]>,
}

impl Row {
    /// The sum of an exposure whose average is the row's value.
    pub fn sum(&self) -> i32 {
        self.samples as i32 * self.value
    }

    /// Note (1) of 4.d.(7): the highest shear that its waveforms may have.
    pub fn highest(&self) -> i32 {
        self.value + self.value.min(7_500)
    }

    /// Note (2) of 4.d.(7) for 0.2700, and 02, A11 for 0.2100: within the slope limit neither can be reached, so the first step
    /// is free.
    pub fn first_step_is_free(&self) -> bool {
        self.value >= 21_000
    }
}

/// All nine rows.
pub fn rows() -> impl Iterator<Item = Row> {
    TEST_ROWS.into_iter().map(|(value, samples, limits)| Row {
        value,
        samples: samples as usize,
        limits,
    })
}

/// The seven rows from 0.1050 up.
pub fn alert_rows() -> impl Iterator<Item = Row> {
    rows().filter(|row| row.limits.is_some())
}

/// An average shear as an exact fraction: a whole number over a positive one.
#[derive(Clone, Copy, Debug)]
pub struct Average {
    num: i128,
    den: i128,
}

impl Average {
    /// Of the last so many held shears; those missing before the first are 0.
    pub fn of(shears: &[i32], samples: usize) -> Average {
        let last = &shears[shears.len().saturating_sub(samples)..];
        Average {
            num: last.iter().map(|&held| i128::from(held)).sum(),
            den: 100_000 * samples as i128,
        }
    }

    /// A table value, as held.
    pub fn held(value: i32) -> Average {
        Average {
            num: value.into(),
            den: 100_000,
        }
    }

    /// With its sign turned for -1.
    pub fn turned(self, sign: i32) -> Average {
        Average {
            num: i128::from(sign) * self.num,
            ..self
        }
    }

    /// Compared by multiplying out.
    pub fn at_least(self, other: Average) -> bool {
        self.num * other.den >= other.num * self.den
    }
}

/// Whether the last samples of the row's exposure have an average at or above the row's value and none above the cut, their signs
/// turned for -1. Below the cut they may be: that only raises what enters the windows.
pub fn reaches(shears: &[i32], row: Row, sign: i32) -> bool {
    let exposure = &shears[shears.len().saturating_sub(row.samples)..];
    exposure.iter().all(|held| sign * held <= CUT)
        && Average::of(shears, row.samples)
            .turned(sign)
            .at_least(Average::held(row.value))
}

/// "The six windows": whether the height is in the band.
pub fn in_band(height: i32) -> bool {
    (50..=1_000).contains(&height)
}

/// So many values from the cut down: at the cut from the first on, then one between, then the rest at a floor, so that they have
/// this sum.
fn filled(samples: usize, sum: i32, floor: i32) -> Vec<i32> {
    let above = sum - samples as i32 * floor;
    let at_the_cut = (above / (CUT - floor)) as usize;
    let mut values = vec![floor; samples];
    values[..at_the_cut].fill(CUT);
    if let Some(between) = values.get_mut(at_the_cut) {
        *between += above % (CUT - floor);
    }
    values
}

/// The values moved alike, as far as the cut lets each, so that they have this sum.
fn settled(mut values: Vec<i32>, sum: i32) -> Vec<i32> {
    loop {
        let mut missing = sum - values.iter().sum::<i32>();
        if missing == 0 {
            return values;
        }
        let share = missing / values.len() as i32 + missing.signum();
        for value in &mut values {
            let step = share.abs().min(missing.abs()) * missing.signum();
            let moved = (*value + step).clamp(-CUT, CUT);
            missing -= moved - *value;
            *value = moved;
        }
    }
}

fn flat(_: &mut Rng, row: Row, sum: i32) -> Vec<i32> {
    settled(vec![row.value; row.samples], sum)
}

/// From as far below the row's value as it ends above it.
fn ramp_up(rng: &mut Rng, row: Row, sum: i32) -> Vec<i32> {
    let over = rng.within(1, CUT - row.value);
    let last = row.samples as i32 - 1;
    let value = |i| row.value - over + 2 * over * i / last;
    settled((0..=last).map(value).collect(), sum)
}

fn ramp_down(rng: &mut Rng, row: Row, sum: i32) -> Vec<i32> {
    backward(ramp_up(rng, row, sum))
}

/// Teeth of any length and height, up or down.
fn saw_teeth(rng: &mut Rng, row: Row, sum: i32) -> Vec<i32> {
    let tooth = rng.within(2, row.samples as i32);
    let (from, to) = (rng.within(-CUT, CUT), rng.within(-CUT, CUT));
    let value = |i| from + (to - from) / tooth * (i % tooth);
    settled((0..row.samples as i32).map(value).collect(), sum)
}

/// At random within a spread.
fn spread(rng: &mut Rng, row: Row, sum: i32) -> Vec<i32> {
    let spread = rng.pick(&[1, 100, 5_000, 2 * CUT]);
    let value = |_| (row.value + rng.within(-spread, spread)).clamp(-CUT, CUT);
    settled((0..row.samples).map(value).collect(), sum)
}

fn backward(mut values: Vec<i32>) -> Vec<i32> {
    values.reverse();
    values
}

/// The worst that reach the sum: all at the start, then zeros.
fn early(_: &mut Rng, row: Row, sum: i32) -> Vec<i32> {
    filled(row.samples, sum, 0)
}

/// As much as can be at the start, then the least.
fn earliest(_: &mut Rng, row: Row, sum: i32) -> Vec<i32> {
    filled(row.samples, sum, -CUT)
}

/// Zeros, then all at the end.
fn late(_: &mut Rng, row: Row, sum: i32) -> Vec<i32> {
    backward(filled(row.samples, sum, 0))
}

/// The least, then as much as can be at the end.
fn latest(_: &mut Rng, row: Row, sum: i32) -> Vec<i32> {
    backward(filled(row.samples, sum, -CUT))
}

/// From one end of the cut to the other and back as far as the sum lets, at the start or at the end.
fn turning(rng: &mut Rng, row: Row, sum: i32) -> Vec<i32> {
    let values = filled(row.samples, sum, -CUT);
    let low = values.iter().filter(|&&value| value == -CUT).count();
    let (high, low) = values.split_at(row.samples - low);
    let each = |(i, &high): (usize, &i32)| [Some(high), low.get(i).copied()];
    let values = high.iter().enumerate().flat_map(each).flatten().collect();
    if rng.one_in(2) {
        backward(values)
    } else {
        values
    }
}

/// The cut and a floor in any order.
fn shuffled(rng: &mut Rng, row: Row, sum: i32) -> Vec<i32> {
    let mut values = filled(row.samples, sum, rng.within(-CUT, 0));
    for i in 1..values.len() {
        values.swap(i, rng.within(0, i as i32) as usize);
    }
    values
}

/// Note (1) of 4.d.(7): the fastest rise to the highest shear.
fn fastest(row: Row) -> Vec<i32> {
    let value = |i| match row.first_step_is_free() {
        true => row.highest(),
        false => row.highest().min(500 * i),
    };
    (1..=row.samples as i32).map(value).collect()
}

/// A waveform that note (1) of 4.d.(7) allows: from 0 to the highest, by at most 500 a sample. Any such two, mixed alike at every
/// sample and rounded down, make a third; so does one whose greatest value is lowered.
pub fn allowed(rng: &mut Rng, row: Row, sum: i32) -> Vec<i32> {
    let top = fastest(row);
    let (mut now, mut slope) = (rng.within(0, top[0]), 0);
    let walk = top.iter().enumerate().map(|(i, &top)| {
        if i > 0 {
            let step = (slope + rng.within(-50, 50)).clamp(-500, 500);
            now = (now + step).clamp(0, top);
        }
        if i == 0 || rng.one_in(15) {
            slope = rng.within(-500, 500);
        }
        now
    });
    let walk: Vec<_> = walk.collect();
    let [low, high] = if walk.iter().sum::<i32>() < sum {
        [walk, top]
    } else {
        [vec![0; row.samples], walk]
    };
    let parts = 1_000;
    let mixed = |part: i32| -> Vec<i32> {
        let both = low.iter().zip(&high);
        both.map(|(low, high)| (low * (parts - part) + high * part).div_euclid(parts))
            .collect()
    };
    let enough = |values: &Vec<i32>| values.iter().sum::<i32>() >= sum;
    let mut values = (0..=parts).map(mixed).find(enough).unwrap();
    for _ in sum..values.iter().sum() {
        *values.iter_mut().max().unwrap() -= 1;
    }
    values
}

/// Makes an exposure of the row within the cut, with this sum.
pub type Shape = fn(&mut Rng, Row, i32) -> Vec<i32>;

/// Every shape by its name.
pub const SHAPES: [(&str, Shape); 12] = [
    ("flat", flat),
    ("ramp up", ramp_up),
    ("ramp down", ramp_down),
    ("saw teeth", saw_teeth),
    ("spread", spread),
    ("early", early),
    ("earliest", earliest),
    ("late", late),
    ("latest", latest),
    ("turning", turning),
    ("shuffled", shuffled),
    ("allowed", allowed),
];

/// The change of along wind over so many frames whose shear is nearest to this one.
pub fn along_change(held: i32, frames: u16) -> i32 {
    let due = i128::from(held) * 1_765_197 * i128::from(frames);
    nearest(due, 1_852_000_000) as i32
}

/// The vertical wind and airspeed, from an airspeed on, that hold a shear with so much change of along wind over so many frames:
/// what is left of it is vertical wind over airspeed. At one airspeed the shears of two successive vertical winds are
/// 100,000 / airspeed apart (17 at 60 knots, 1.7 at 600), so the nearest may miss; at the next airspeeds they lie elsewhere, and the
/// first that is held as wanted is taken. The unrounded shear is then within half a hundred-thousandth.
pub fn draft(held: i32, change: i32, frames: u16, from: i32) -> Option<(i32, i32)> {
    let per_change = 1_765_197 * i128::from(frames);
    let left = i128::from(held) * per_change - i128::from(change) * 1_852_000_000;
    let most = i128::from(RANGES[1].1);
    let vertical = |airspeed: i32| -nearest(left * i128::from(airspeed), 100_000 * per_change);
    (from..=RANGES[2].1)
        .map(|airspeed| (vertical(airspeed), airspeed))
        .take_while(|(vertical, _)| vertical.abs() <= most)
        .map(|(vertical, airspeed)| (vertical as i32, airspeed))
        .find(|&(vertical, airspeed)| shear(change, frames, vertical, airspeed) == held)
}

/// Which wind a shear is made by.
#[derive(Clone, Copy, Debug)]
pub enum Axis {
    /// The vertical wind alone, the along wind still.
    Vertical,
    /// The change of along wind that is nearest, or the next one; the vertical wind has what is left, at most 525, or 1,575.
    Horizontal,
    /// Any part of that change, the vertical wind the rest.
    Both,
}

pub const AXES: [Axis; 3] = [Axis::Vertical, Axis::Horizontal, Axis::Both];

/// However the along wind stands, every shear up to this either way can be held, by the vertical wind and a change of at most one
/// hundredth of a knot; within the cut, but for -1 and 1, by the vertical wind alone.
pub const GUST: i32 = 100_000;

/// Winds that hold wanted shears, sample after sample.
#[derive(Clone, Debug)]
pub struct Winds {
    axis: Axis,
    along: i32,
    /// The frame number of the last sample.
    last: Option<u16>,
}

impl Winds {
    /// The first sample has this along wind, which is no change.
    pub fn new(axis: Axis, along: i32) -> Winds {
        Winds {
            axis,
            along,
            last: None,
        }
    }

    /// A least and a greatest shear between which the next sample, so many frames later, can hold all, the first sample all but
    /// -1 and 1.
    pub fn reach(&self, frames: u16) -> (i32, i32) {
        if self.last.is_none() {
            return (-CUT, CUT);
        }
        let (low, high) = RANGES[0];
        let by_change = |along: i32| shear(along - self.along, frames, 0, RANGES[2].0);
        (by_change(low).min(-GUST), by_change(high).max(GUST))
    }

    /// The change of along wind for a shear: its axis's, or back from far off where the vertical wind can make up for it. A shear
    /// of 1 wants one for each frame.
    fn change(&self, rng: &mut Rng, held: i32, frames: u16) -> i32 {
        // the nearest for each frame, so that enough is left for the vertical wind
        let nearest = i32::from(frames) * along_change(held, 1);
        if held.abs() > GUST {
            along_change(held, frames)
        } else if held.abs() == 1 {
            held * i32::from(frames)
        } else if self.along.abs() > 5_000 {
            -100 * self.along.signum()
        } else {
            match self.axis {
                Axis::Vertical => 0,
                Axis::Horizontal => nearest,
                Axis::Both => nearest * rng.within(0, 8) / 8,
            }
        }
    }

    /// The sample so many frames after the last, with other winds and another airspeed, so that it holds exactly this shear. Where
    /// the change cannot be had, it is one more or less, or the along wind stands still or nearly so.
    pub fn hold(&mut self, rng: &mut Rng, held: i32, frames: u16, s: Sample) -> Sample {
        let wanted = self.change(rng, held, frames);
        let slowest = RANGES[2].0;
        let others = [wanted, wanted + 1, wanted - 1, 0, 1, -1].map(|change| (change, slowest));
        let first = (wanted, rng.within(slowest, 20_000));
        let (low, high) = RANGES[0];
        let can = |change| self.last.is_some() && (low..=high).contains(&(self.along + change));
        let found = std::iter::once(first)
            .chain(others)
            .filter(|&(change, _)| change == 0 || can(change))
            .find_map(|(change, from)| {
                draft(held, change, frames, from).map(|found| (change, found))
            });
        let Some((change, (vertical, airspeed))) = found else {
            panic!("{held} cannot be held after {self:?}");
        };
        self.along += change;
        let frame = self.last.map_or(0, |last| last.wrapping_add(frames));
        self.last = Some(frame);
        Sample {
            along: self.along,
            vertical,
            airspeed,
            frame,
            ..s
        }
    }
}

/// The samples with other winds and airspeeds, so that they hold these shears, each over so many frames.
pub fn holding(
    rng: &mut Rng,
    axis: Axis,
    list: &[Sample],
    shears: &[i32],
    frames: &[u16],
) -> Vec<Sample> {
    assert_eq!([shears.len(), frames.len()], [list.len(); 2]);
    let mut winds = Winds::new(axis, rng.within(-500, 500));
    let samples = list.iter().zip(shears).zip(frames);
    samples
        .map(|((s, &held), &frames)| winds.hold(rng, held, frames, *s))
        .collect()
}

/// The accepted samples of a list from a fresh start, by what the library answers to them.
#[derive(Default)]
pub struct Run {
    pub heights: Vec<i32>,
    pub modes: Vec<i32>,
    pub shears: Vec<i32>,
    pub alerts: Vec<u8>,
    /// 02, A6: the shears, each once for each frame of its sample, and how many of them there are at each sample.
    entries: Vec<i32>,
    pub ends: Vec<usize>,
    /// The reference's red and amber condition.
    pub conditions: Vec<[bool; 2]>,
}

impl Run {
    /// The library is told the list in the plain form and lent, the reference beside it, and as a run file the first samples that
    /// it has room for: of version 2, and of version 1 too where each stands for one frame.
    pub fn of(both: &Both, name: &str, list: &[Sample]) -> Run {
        let mut run = Run::default();
        let mut accepted = Vec::new();
        let mut pair = both.fresh(name);
        for s in list {
            let (answer, _) = pair.state.offer(sent(s));
            if pair.offer(s).is_ok() {
                accepted.push(*s);
                run.heights.push(s.height);
                run.modes.push(s.mode);
                run.shears.push(answer.shear);
                run.alerts.push(answer.alert as u8);
                run.ends.push(pair.unit.frames() as usize);
                run.entries
                    .resize(pair.unit.frames() as usize, answer.shear);
                run.conditions
                    .push([1, -1].map(|sign| pair.unit.condition(sign)));
            }
        }
        let dropped = run.entries.len() > accepted.len();
        for version in &VERSIONS[usize::from(dropped)..] {
            let in_file = &accepted[..accepted.len().min(version.most)];
            let file = samples_in(version, in_file);
            let bytes = both.run(&file, 10 * in_file.len()).unwrap();
            for (i, bytes) in bytes.chunks(10).enumerate() {
                assert_eq!(bytes[0], run.alerts[i], "{name}: {i}");
                assert_eq!(bytes[4..8], run.shears[i].to_le_bytes(), "{name}: {i}");
            }
        }
        run
    }

    /// The shears up to a sample, each once for each of its frames.
    pub fn entries(&self, at: usize) -> &[i32] {
        &self.entries[..self.ends[at]]
    }

    /// The rows that 02, A4 promises an alert for at a sample, for sign 1 red, for -1 amber where red is dark.
    pub fn promised(&self, at: usize, sign: i32) -> impl Iterator<Item = Row> + '_ {
        let reached = move |row: &Row| reaches(self.entries(at), *row, sign);
        alert_rows().filter(move |row| in_band(self.heights[at]) && reached(row))
    }
}
