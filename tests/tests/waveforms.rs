//! 02, A4: what is promised for every waveform, tried: averages that reach a test row of 000 light its lamp at the end, shears up
//! to 8,000 light none, and a run whose shears are at least another's has its red condition wherever that one has it. Also what is
//! not promised. Every waveform is turned into winds, and told to the library in the plain form, lent and as run files. By A6 what
//! is promised reads the entries at the judged samples, so it is tried with dropped frames too.

use windshear_tests::both::Both;
use windshear_tests::gen::*;
use windshear_tests::reference::{shear, Sample, CUT, MOST_FRAMES, RANGES};
use windshear_tests::waveform::*;

/// Each whole shear within the cut: by the vertical wind and the airspeed alone all but -1 and 1 are held exactly, unrounded within
/// half a hundred-thousandth; with the along wind all are. So are stronger gusts, with a change of one at the most.
#[test]
fn winds_for_every_shear() {
    let (mut rng, both) = (Rng::new(400), Both::new());
    let (mut by_draft, mut missed, mut furthest) = (0u64, Vec::new(), 0);
    let (mut exact, mut next) = (0u64, 0u64);
    for held in -CUT..=CUT {
        match draft(held, 0, 1, RANGES[2].0) {
            Some((vertical, airspeed)) => {
                let fields = [vertical, airspeed, held].map(i64::from);
                let [vertical, airspeed, held] = fields;
                let off = (-vertical * 100_000 - held * airspeed).abs();
                assert!(2 * off <= airspeed, "{held}");
                by_draft += 1;
                if held.abs() > 10 {
                    furthest = furthest.max(airspeed);
                }
            }
            None => missed.push(held),
        }
        for axis in AXES {
            let mut winds = Winds::new(axis, rng.within(-500, 500));
            let list = [0, held].map(|held| winds.hold(&mut rng, held, 1, CALM));
            assert_eq!(both.play(&list)[1].shear, held, "{axis:?}");
            let change = list[1].along - list[0].along;
            let left = held - shear(change, 1, 0, list[1].airspeed);
            match axis {
                _ if held.abs() == 1 => assert_eq!(change.abs(), 1),
                Axis::Vertical => assert_eq!(change, 0),
                Axis::Horizontal => {
                    assert!(left.abs() <= 1_575, "{held}");
                    next += u64::from(left.abs() > 525);
                }
                Axis::Both => assert!(left.abs() <= held.abs() + 1_575, "{held}"),
            }
            exact += 1;
        }
    }
    // at the greatest airspeed one hundredth of a knot is a shear of 1.67
    assert_eq!(missed, [-1, 1]);
    assert_eq!([0, -1].map(|v| shear(0, 1, v, RANGES[2].1)), [0, 2]);
    for held in -GUST..=GUST {
        // with both signs turned this is -1
        let by_change = |change| draft(held, change, 1, RANGES[2].0).is_some();
        assert!([0, 1].into_iter().any(by_change), "{held}");
    }
    println!(
        "compared {exact} shears held exactly as wanted; by the vertical wind alone {by_draft} of 69001, beyond 10 with \
         airspeeds up to {furthest}; by the along wind {next} with the next change"
    );
    assert!(by_draft == 68_999 && next < 1_000);
    both.done();
}

/// Heights beside the band and at the ends of their range.
const OUTSIDE: [i32; 4] = [-20, 49, 1_001, 5_000];

/// So many heights, the last one in the band, often at an end of it. Before it they are in the band too, or out of it until some
/// last samples, or now and then.
fn heights(rng: &mut Rng, n: usize) -> Vec<i32> {
    let any = rng.within(50, 1_000);
    let inside = rng.pick(&[50, 1_000, any]);
    let outside = rng.pick(&OUTSIDE);
    let last = rng.within(1, 60) as usize;
    let last = rng.pick(&[1, last, last, n]);
    let mixed = rng.one_in(4);
    let one = |i| {
        let is_in = i + 1 == n || if mixed { rng.one_in(2) } else { i + last >= n };
        if is_in {
            inside
        } else {
            outside
        }
    };
    (0..n).map(one).collect()
}

/// Random samples at these heights, whose winds are still to be put in.
fn at_heights(rng: &mut Rng, heights: &[i32]) -> Vec<Sample> {
    let one = |&height| Sample {
        height,
        ..random_sample(rng)
    };
    heights.iter().map(one).collect()
}

/// Shears before an exposure: none, calm ones, any within the cut, gusts beyond it, or an exposure at the cut either way.
fn earlier(rng: &mut Rng) -> Vec<i32> {
    let n = rng.within(1, 260);
    let n = if rng.one_in(6) { 0 } else { n };
    let kind = rng.within(0, 5);
    let side = rng.pick(&[1, -1]);
    let one = |i| match kind {
        _ if i == 0 => 0,
        0 => 0,
        1 => rng.within(-300, 300),
        2 => rng.within(-CUT, CUT),
        3 if rng.one_in(5) => rng.within(-GUST, GUST),
        3 => rng.within(-2_000, 2_000),
        _ => side * CUT,
    };
    (0..n).map(one).collect()
}

/// The run of these shears at these heights, each over one frame, refused samples among them; the library shows each shear as
/// wanted.
fn run_of(
    both: &Both,
    rng: &mut Rng,
    name: &str,
    axis: Axis,
    shears: &[i32],
    heights: &[i32],
) -> Run {
    let ones = vec![1; shears.len()];
    run_over(both, rng, name, axis, (shears, &ones), heights)
}

/// As `run_of`, each over so many frames.
fn run_over(
    both: &Both,
    rng: &mut Rng,
    name: &str,
    axis: Axis,
    (shears, frames): (&[i32], &[u16]),
    heights: &[i32],
) -> Run {
    let list = at_heights(rng, heights);
    let list = holding(rng, axis, &list, shears, frames);
    let run = Run::of(both, name, &with_refused(rng, list));
    assert_eq!(run.shears, shears, "{name}");
    assert_eq!(run.heights, heights, "{name}");
    run
}

/// How often the promise of A4's first half was due.
#[derive(Default)]
struct Due {
    /// By the way, and the row.
    rows: [[u64; 7]; 2],
    /// By the way, at the lower and at the upper end of the band.
    ends: [[u64; 2]; 2],
    /// Amber's, where red was lit.
    red_lit: u64,
}

impl Due {
    /// The promise at every sample of a run. Where all that the windows hold lies within the cut, each condition holds exactly
    /// where a row is reached in the band.
    fn kept(&mut self, name: &str, run: &Run) {
        for at in 0..run.alerts.len() {
            let within = run
                .entries(at)
                .iter()
                .rev()
                .take(200)
                .all(|held| held.abs() <= CUT);
            for (way, (sign, alert)) in WAYS.into_iter().enumerate() {
                let mut due = false;
                for row in run.promised(at, sign) {
                    let lit = run.alerts[at];
                    assert!(lit == alert || lit == 2, "{name}: {lit} at {at}, {row:?}");
                    let place = alert_rows().position(|other| other == row).unwrap();
                    self.rows[way][place] += 1;
                    due = true;
                }
                if due {
                    let ends = [50, 1_000].map(|end| run.heights[at] == end);
                    self.ends[way][0] += u64::from(ends[0]);
                    self.ends[way][1] += u64::from(ends[1]);
                    self.red_lit += u64::from(sign == -1 && run.alerts[at] == 2);
                }
                assert!(!within || due == run.conditions[at][way], "{name}: {at}");
            }
        }
    }
}

/// Each way with its alert, and each row that calls for one.
fn ways_and_rows() -> impl Iterator<Item = ((i32, u8), Row)> {
    WAYS.into_iter()
        .flat_map(|way| alert_rows().map(move |row| (way, row)))
}

/// After anything, an exposure of a row with its average or above it, of every shape, both ways: the lamp is lit at its end. The
/// same is judged at every other sample.
#[test]
fn reached_averages_are_lit() {
    let (mut rng, both, mut due) = (Rng::new(401), Both::new(), Due::default());
    let [mut ends, mut short, mut entered, mut red_lit, mut below] = [0u64; 5];
    for seed in 0..16 {
        for (name, shape) in SHAPES {
            for ((sign, alert), row) in ways_and_rows() {
                // one shear below the cut, which the others make up for
                let dip = if name != "allowed" && rng.one_in(4) {
                    70_000
                } else {
                    0
                };
                let name = format!("{name} {row:?} {sign} {seed}");
                let more = rng.within(0, 5_000);
                let sum = row.sum() + rng.pick(&[0, 0, 1, more]);
                let mut wave = shape(&mut rng, row, sum + dip);
                let places: Vec<_> = (0..row.samples).filter(|&i| wave[i] >= -30_000).collect();
                wave[rng.pick(&places)] -= dip;
                below += u64::from(dip > 0);
                assert_eq!(
                    (wave.len(), wave.iter().sum()),
                    (row.samples, sum),
                    "{name}"
                );
                wave.iter_mut().for_each(|held| *held *= sign);
                let mut shears = earlier(&mut rng);
                if shears.is_empty() {
                    // what is missing before the first sample counts as the zeros that it begins with
                    let zeros = wave.iter().take_while(|&&held| held == 0).count();
                    wave.drain(..zeros);
                    short += u64::from(zeros > 0);
                    if wave[0].abs() == 1 || wave[0].abs() > CUT {
                        // which a first sample may not hold
                        shears.push(0);
                    }
                }
                shears.extend(wave);
                let heights = heights(&mut rng, shears.len());
                let axis = rng.pick(&AXES);
                let run = run_of(&both, &mut rng, &name, axis, &shears, &heights);
                assert!(reaches(&run.shears, row, sign), "{name}");
                let lit = run.alerts[shears.len() - 1];
                assert!(lit == alert || lit == 2, "{name}: {lit}");
                due.kept(&name, &run);
                ends += 1;
                entered += u64::from(!heights.iter().rev().skip(1).any(|&h| in_band(h)));
                red_lit += u64::from(lit != alert);
            }
        }
    }
    println!(
        "compared {ends} ends of exposures, {short} of them shorter than the row's, {entered} the first sample in the band, \
         {below} with a shear below the cut, {red_lit} for amber with red lit; at all samples the promise was due by way and row \
         {:?}, at the band's ends {:?}, for amber with red lit {}",
        due.rows, due.ends, due.red_lit
    );
    assert!(due.rows.as_flattened().iter().all(|&n| n > 10_000));
    assert!(due.ends.as_flattened().iter().all(|&n| n > 5_000));
    assert!(ends == 16 * 168 && short > 20 && entered > 300 && below > 500);
    assert!(red_lit > 10 && due.red_lit > 100);
    both.done();
}

/// An exposure parted into samples of up to `most` frames: the frames of each, and the least shear whose entries have the sum of its
/// part or more.
fn parted(rng: &mut Rng, wave: &[i32], most: u16) -> (Vec<i32>, Vec<u16>) {
    let (mut rest, mut shears, mut frames) = (wave, Vec::new(), Vec::new());
    while !rest.is_empty() {
        let n = usize::from(up_to(rng, most)).min(rest.len());
        let sum: i32 = rest[..n].iter().sum();
        shears.push(-(-sum).div_euclid(n as i32));
        frames.push(n as u16);
        rest = &rest[n..];
    }
    (shears, frames)
}

/// 02, A6: as `reached_averages_are_lit`, read from the entries at the judged samples. The exposure's first entries may be part of a
/// sample that is older.
#[test]
fn reached_averages_are_lit_over_frames() {
    let (mut rng, both, mut due) = (Rng::new(411), Both::new(), Due::default());
    let (mut ends, mut within) = (0u64, 0u64);
    for seed in 0..24 {
        for (name, shape) in SHAPES {
            for ((sign, alert), row) in ways_and_rows() {
                let name = format!("{name} {row:?} {sign} {seed}");
                let most = rng.pick(&[2, 7, MOST_FRAMES]);
                let wave = shape(&mut rng, row, row.sum());
                let (mut wave, mut over) = parted(&mut rng, &wave, most);
                let older = rng.within(0, (MOST_FRAMES - over[0]).into());
                over[0] += older as u16;
                wave.iter_mut().for_each(|held| *held *= sign);
                let mut shears = earlier(&mut rng);
                if shears.is_empty() {
                    // the first sample stands for one, and may not hold every shear
                    shears.push(0);
                }
                let mut frames: Vec<_> = shears.iter().map(|_| up_to(&mut rng, most)).collect();
                frames[0] = 1;
                shears.append(&mut wave);
                frames.append(&mut over);
                let heights = heights(&mut rng, shears.len());
                let axis = rng.pick(&AXES);
                let told = (&shears[..], &frames[..]);
                let run = run_over(&both, &mut rng, &name, axis, told, &heights);
                let end = shears.len() - 1;
                assert!(reaches(run.entries(end), row, sign), "{name}");
                let lit = run.alerts[end];
                assert!(lit == alert || lit == 2, "{name}: {lit}");
                due.kept(&name, &run);
                ends += 1;
                within += u64::from(older > 0);
            }
        }
    }
    println!(
        "compared {ends} ends of exposures over dropped frames, {within} of them from within a sample; at all samples the promise was due \
         by way and row {:?}, at the band's ends {:?}",
        due.rows, due.ends
    );
    assert!(due.rows.as_flattened().iter().all(|&n| n > 3_000));
    assert!(due.ends.as_flattened().iter().all(|&n| n > 1_000));
    both.done();
}

/// Waveforms with one hundred-thousandth less in sum than a row asks for, after zeros: that row is not reached, and where no other
/// is, both lamps are dark. The lamp comes on exactly where the first row is reached.
#[test]
fn one_less_in_sum() {
    let (mut rng, both, mut due) = (Rng::new(402), Both::new(), Due::default());
    let [mut dark, mut lit] = [0u64; 2];
    for (name, shape) in SHAPES.into_iter().cycle().take(10 * SHAPES.len()) {
        for ((sign, alert), row) in ways_and_rows() {
            let name = format!("{name} {row:?} {sign}");
            let mut shears = vec![0; 5];
            let wave = shape(&mut rng, row, row.sum() - 1);
            shears.extend(wave.iter().map(|held| sign * held));
            let axis = rng.pick(&AXES);
            let heights = vec![rng.within(50, 1_000); shears.len()];
            let run = run_of(&both, &mut rng, &name, axis, &shears, &heights);
            assert!(!reaches(&run.shears, row, sign), "{name}");
            due.kept(&name, &run);
            let first = (0..shears.len()).find(|&at| run.promised(at, sign).next().is_some());
            let on = run.alerts.iter().position(|&lit| lit == alert);
            // red that is lit by an exposure the other way may keep amber dark
            assert!(
                on == first || alert == 1 && run.alerts.contains(&2),
                "{name}"
            );
            match on {
                Some(_) => lit += 1,
                None => dark += 1,
            }
        }
    }
    println!("compared {} waveforms with one less in sum: {dark} are dark, {lit} light the lamp by another row", dark + lit);
    assert!(dark > 100 && lit > 100);
    both.done();
}

/// Chooses a shear up to 8,000: at a sample, from the least that can be had.
type Below = fn(&mut Rng, i32, i32) -> i32;

/// Shears up to 8,000 without end: flat, at random, with drops to the least that can be had, and the two rows without alert.
const BELOW: [(&str, Below); 6] = [
    ("flat", |_, _, _| 8_000),
    ("random", |rng, _, _| rng.within(0, 8_000)),
    ("within the cut", |rng, _, _| rng.within(-CUT, 8_000)),
    ("gusts", |rng, _, _| rng.pick(&[8_000, 8_000, -GUST])),
    ("drops", |rng, i, least| {
        let half = rng.within(least / 2, 0);
        match rng.one_in(400) || i == 1 {
            true => rng.pick(&[least, half, half.max(-2_098_349)]),
            false => 8_000,
        }
    }),
    (
        "stretches",
        |_, i, _| if i / 250 % 2 == 0 { 8_000 } else { -CUT },
    ),
];

/// The samples of each list.
const MANY: i32 = 4_000;

/// Frames that a sample stands for, up to so many.
fn up_to(rng: &mut Rng, most: u16) -> u16 {
    match most {
        1 => 1,
        _ => rng.within(1, most.into()) as u16,
    }
}

/// The run of so many samples in the band, or most of them, each over up to `most` frames, whose shears are chosen as they come; and
/// turned for sign -1.
fn chosen(
    both: &Both,
    rng: &mut Rng,
    (axis, sign, most): (Axis, i32, u16),
    name: &str,
    mut choose: impl FnMut(&mut Rng, i32, i32) -> i32,
) -> Run {
    let mut winds = Winds::new(axis, sign * RANGES[0].1);
    let outside = rng.pick(&[10, 1_000_000]);
    let list = (0..MANY).map(|i| {
        let frames = up_to(rng, most);
        let (low, high) = winds.reach(frames);
        let least = if sign == 1 { low } else { -high };
        let held = sign * choose(rng, i, least).max(least);
        let mut s = random_sample(rng);
        s.height = rng.within(50, 1_000);
        if rng.one_in(outside) {
            s.height = rng.pick(&OUTSIDE);
        }
        winds.hold(rng, held, frames, s)
    });
    let list: Vec<_> = list.collect();
    Run::of(both, name, &with_refused(rng, list))
}

/// Waveforms of the two rows without alert, each with exactly the row's average.
fn no_alert_waveforms(rng: &mut Rng) -> Vec<i32> {
    let weak: Vec<_> = rows().filter(|row| row.limits.is_none()).collect();
    let mut shears = Vec::new();
    while shears.len() < MANY as usize {
        let row = rng.pick(&weak);
        shears.extend(allowed(rng, row, row.sum()));
    }
    shears
}

/// From a fresh start no shear above 8,000, however low some are, each over up to `most` frames: red never comes on. Turned: amber
/// never does. Gives back at how many samples the other lamp was lit, and the least shear.
fn up_to_8000(both: &Both, seed: u64, most: u16) -> ([u64; 2], i32) {
    let mut rng = Rng::new(seed);
    let (mut answers, mut other, mut lowest) = (0u64, [0u64; 2], 0);
    for (axis, (way, (sign, alert))) in AXES
        .into_iter()
        .flat_map(|axis| WAYS.into_iter().enumerate().map(move |way| (axis, way)))
    {
        let mut try_one = |name: &str, run: Run| {
            assert!(run.shears.iter().all(|held| sign * held <= 8_000), "{name}");
            assert!(run.alerts.iter().all(|&lit| lit != alert), "{name}");
            answers += run.alerts.len() as u64;
            other[way] += run.alerts.iter().filter(|&&lit| lit != 0).count() as u64;
            lowest = run
                .shears
                .iter()
                .fold(lowest, |low, held| low.min(sign * held));
        };
        let how = (axis, sign, most);
        for (name, below) in BELOW.into_iter().cycle().take(3 * BELOW.len()) {
            try_one(name, chosen(both, &mut rng, how, name, below));
        }
        let waves = no_alert_waveforms(&mut rng);
        let run = chosen(both, &mut rng, how, "rows", |_, i, _| waves[i as usize]);
        assert!(run.alerts.iter().all(|&lit| lit == 0));
        try_one("rows", run);
    }
    println!(
        "compared {answers} answers to shears up to 8000, the least {lowest}; the other lamp was lit at {other:?} of them"
    );
    assert_eq!(answers, 6 * 19 * MANY as u64);
    (other, lowest)
}

#[test]
fn shears_up_to_8000_light_no_lamp() {
    let both = Both::new();
    let (other, lowest) = up_to_8000(&both, 403, 1);
    assert!(other.iter().all(|&n| n > 10_000) && lowest < -41_900_000);
    both.done();
}

/// 02, A6: however many frames each shear stands for.
#[test]
fn shears_up_to_8000_light_no_lamp_over_frames() {
    let both = Both::new();
    let (other, lowest) = up_to_8000(&both, 409, MOST_FRAMES);
    assert!(other.iter().all(|&n| n > 10_000) && lowest < -2_000_000);
    both.done();
}

/// Within 8,000 either way both lamps stay dark.
#[test]
fn shears_within_8000_light_neither() {
    let (mut rng, both) = (Rng::new(404), Both::new());
    let mut answers = 0u64;
    let within: [(&str, Below); 3] = [
        ("random", |rng, _, _| rng.within(-8_000, 8_000)),
        ("turning", |_, i, _| 8_000 - 16_000 * (i % 2)),
        ("stretches", |_, i, _| 8_000 - 16_000 * (i / 300 % 2)),
    ];
    for axis in AXES {
        for (sign, _) in WAYS {
            for (name, choose) in within {
                let run = chosen(&both, &mut rng, (axis, sign, 1), name, choose);
                assert!(run.shears.iter().all(|held| held.abs() <= 8_000), "{name}");
                assert!(run.alerts.iter().all(|&lit| lit == 0), "{name}");
                answers += run.alerts.len() as u64;
            }
        }
    }
    println!("compared {answers} answers to shears within 8000 either way");
    both.done();
}

/// Two lists with equal heights and modes and any other fields, refused samples among them: the shears of the second are each at
/// least those of the first, over the same frames, up to `most`. The first stays near the rows' values for a while, either way, with
/// gusts beyond the cut.
fn dominated(rng: &mut Rng, most: u16) -> [Vec<Sample>; 2] {
    let rows: Vec<_> = alert_rows().collect();
    let mut winds = [(); 2].map(|()| Winds::new(rng.pick(&AXES), 0));
    let (mut level, mut height, mut mode) = (0, 400, 1);
    let spread = rng.pick(&[0, 50, 3_000, CUT]);
    let (raise, often) = (rng.pick(&[0, 1, 200, 4_000]), rng.pick(&[1, 10]));
    let calm = rng.pick(&[40, 1_000_000]);
    let mut lists = [(); 2].map(|()| Vec::new());
    for i in 0..rng.within(300, 700) {
        if i % 100 == 1 {
            let near = rng.pick(&rows).value + rng.within(-200, 600);
            level = rng.pick(&[near, near, near, 0, -near]);
        }
        if rng.one_in(30) {
            height = rng.pick(&[400, 400, 400, 50, 1_000, 49, 1_001]);
        }
        if rng.one_in(50) {
            mode = 1 - mode;
        }
        let frames = up_to(rng, most);
        let [(least, greatest), (least_higher, greatest_higher)] =
            [&winds[0], &winds[1]].map(|winds| winds.reach(frames));
        let mut shears = [0; 2];
        if i > 0 {
            let gust = rng.pick(&[2 * CUT, GUST, 2_100_000]);
            let size = if rng.one_in(calm) { gust } else { spread };
            let lower = level + rng.within(-size, size);
            let lower = lower.clamp(least, greatest.min(greatest_higher));
            let gust = if rng.one_in(5 * calm) { gust } else { 0 };
            let raised = lower
                + gust
                + if rng.one_in(often) {
                    rng.within(0, raise)
                } else {
                    0
                };
            shears = [lower, raised.clamp(least_higher, greatest_higher)];
        }
        for ((list, winds), held) in lists.iter_mut().zip(&mut winds).zip(shears) {
            let s = Sample {
                height,
                mode,
                ..random_sample(rng)
            };
            list.push(winds.hold(rng, held, frames, s));
        }
    }
    lists.map(|list| with_refused(rng, list))
}

/// How often a pair had red's condition in the lower run, with gusts in the windows beyond the cut, in the higher one alone, and the
/// red lamp lit in the lower one alone.
struct Kept {
    red: u64,
    beyond: u64,
    only_higher: u64,
    out_of_order: u64,
}

/// Of two runs with equal heights, modes and frames, one with each shear at least the other's: the red condition holds in it
/// wherever it holds in the other, so that its red lamp is lit there, and wherever the other's comes on. The amber condition goes the
/// other way. Gives back how often each was so.
fn kept_in_order(both: &Both, seed: u64, most: u16) -> Kept {
    let mut rng = Rng::new(seed);
    let mut places = 0u64;
    let [mut red, mut on, mut amber, mut only_higher, mut beyond, mut out_of_order] = [0u64; 6];
    for k in 0..600 {
        let lists = dominated(&mut rng, most);
        let [lower, higher] = lists.map(|list| Run::of(both, &format!("pair {k}"), &list));
        assert_eq!(lower.heights, higher.heights);
        assert_eq!(lower.modes, higher.modes);
        assert_eq!(lower.ends, higher.ends);
        for at in 0..lower.alerts.len() {
            assert!(lower.shears[at] <= higher.shears[at]);
            let ([red_lower, amber_lower], [red_higher, amber_higher]) =
                (lower.conditions[at], higher.conditions[at]);
            let lit = [&lower, &higher].map(|run| run.alerts[at] == 2);
            let comes_on = lit[0] && (at == 0 || lower.alerts[at - 1] != 2);
            assert!(!red_lower || red_higher && lit[1], "pair {k}: {at}");
            assert!(!comes_on || lit[1], "pair {k}: {at}");
            assert!(!amber_higher || amber_lower, "pair {k}: {at}");
            let mut windows = higher.entries(at).iter().rev().take(100);
            let gusts = windows.any(|held| held.abs() > CUT);
            places += 1;
            red += u64::from(red_lower);
            on += u64::from(comes_on);
            amber += u64::from(amber_higher);
            only_higher += u64::from(red_higher && !red_lower);
            beyond += u64::from(red_lower && gusts);
            out_of_order += u64::from(lit[0] && !lit[1]);
        }
    }
    println!(
        "compared {places} places of pairs: red's condition in the lower at {red}, {beyond} of them with gusts beyond the cut, \
         and only in the higher at {only_higher}; red comes on in the lower at {on}, amber's condition in the higher at {amber}; \
         at {out_of_order} only the lower's red lamp is lit"
    );
    assert!(places > 250_000 && on > 500 && amber > 5_000);
    Kept {
        red,
        beyond,
        only_higher,
        out_of_order,
    }
}

#[test]
fn higher_shears_keep_the_red_condition() {
    let both = Both::new();
    let kept = kept_in_order(&both, 405, 1);
    assert!(kept.beyond > 15_000 && kept.red - kept.beyond > 15_000);
    assert!(kept.only_higher > 1_500 && kept.out_of_order > 100);
    both.done();
}

/// 02, A6: with equal frames.
#[test]
fn higher_shears_keep_the_red_condition_over_frames() {
    let both = Both::new();
    let kept = kept_in_order(&both, 410, MOST_FRAMES);
    assert!(kept.beyond > 5_000 && kept.red - kept.beyond > 5_000);
    assert!(kept.only_higher > 1_000);
    both.done();
}

/// The run of these shears by the vertical wind, calm otherwise and in the band but for the last height.
fn calm_run(both: &Both, shears: &[i32], last_height: i32) -> Run {
    let mut list = vec![CALM; shears.len()];
    list[shears.len() - 1].height = last_height;
    let list = holding(
        &mut Rng::new(406),
        Axis::Vertical,
        &list,
        shears,
        &vec![1; shears.len()],
    );
    let run = Run::of(both, "calm", &list);
    assert_eq!(run.shears, shears);
    run
}

/// Zeros, so many samples of a shear, and others after them.
fn exposed(held: i32, samples: usize, after: &[i32]) -> Vec<i32> {
    [&vec![0; 20], &vec![held; samples], after].concat()
}

/// The places with this alert.
fn lit(run: &Run, alert: u8) -> Vec<usize> {
    let is_lit = |&at: &usize| run.alerts[at] == alert;
    (0..run.alerts.len()).filter(is_lit).collect()
}

/// A flat exposure lights its lamp at its end. With one sample one lower, or one sample fewer, it is not promised: all is dark
/// unless another row is reached. Out of the band at its end it is dark.
#[test]
fn not_promised_below_the_average_or_out_of_the_band() {
    let both = Both::new();
    let mut tried = 0u64;
    for ((sign, alert), row) in ways_and_rows() {
        let (held, end) = (sign * row.value, 19 + row.samples);
        let full = exposed(held, row.samples, &[]);
        for height in [50, 1_000] {
            assert_eq!(calm_run(&both, &full, height).alerts[end], alert);
        }
        // 27,000 is well above the window of its exposure
        let first = lit(&calm_run(&both, &full, 400), alert)[0];
        assert_eq!(first == end, row.value != 27_000, "{row:?}");
        for height in OUTSIDE {
            let run = calm_run(&both, &full, height);
            assert_eq!(run.alerts[end] == 0, first == end, "{row:?} at {height}");
        }
        let short = exposed(held, row.samples - 1, &[]);
        let run = calm_run(&both, &short, 400);
        assert_eq!(lit(&run, alert).is_empty(), first == end, "{row:?}");
        for lower in [20, 20 + row.samples / 2, end] {
            let mut shears = full.clone();
            shears[lower] -= sign;
            let run = calm_run(&both, &shears, 400);
            assert!(!reaches(&run.shears, row, sign));
            // 140 × 14,990 and 100 × 21,000 are above what other windows ask for
            let another = [14_990, 21_000, 27_000].contains(&row.value);
            assert_eq!(lit(&run, alert).is_empty(), !another, "{row:?}");
        }
        tried += 11;
    }
    println!("compared {tried} flat exposures at and below what is promised");
    both.done();
}

/// The bound of 8,000 could not be 10,500, which lights the lamp at the 200th sample; 10,499 never does.
#[test]
fn flat_shears_beside_10500() {
    let both = Both::new();
    for (sign, alert) in WAYS {
        let run = calm_run(&both, &[sign * 10_500; 300], 400);
        assert_eq!(lit(&run, alert), (199..300).collect::<Vec<_>>());
        let run = calm_run(&both, &vec![sign * 10_499; 3_000], 400);
        assert!(run.alerts.iter().all(|&lit| lit == 0));
    }
    both.done();
}

/// A waveform beyond the cut: the average of its shears as shown is at the row's value and above, by one gust, and all is dark.
#[test]
fn not_promised_beyond_the_cut() {
    let both = Both::new();
    let mut tried = 0u64;
    for ((sign, alert), row) in ways_and_rows() {
        for at in [20, 20 + row.samples / 2, 19 + row.samples] {
            let low = (2_000_000 / row.samples as i32).min(row.value);
            let mut shears = exposed(low, row.samples, &[]);
            shears[at] = row.sum() - (row.samples as i32 - 1) * low;
            shears.iter_mut().for_each(|held| *held *= sign);
            let average = Average::of(&shears, row.samples).turned(sign);
            assert!(average.at_least(Average::held(row.value)));
            assert!(shears[at].abs() > CUT);
            let calm = vec![CALM; shears.len()];
            let list = holding(
                &mut Rng::new(407),
                Axis::Both,
                &calm,
                &shears,
                &vec![1; shears.len()],
            );
            let run = Run::of(&both, "gust", &list);
            assert_eq!(run.shears, shears);
            assert!(!reaches(&run.shears, row, sign));
            assert!(lit(&run, alert).is_empty(), "{row:?} {at}");
            tried += 1;
        }
    }
    println!("compared {tried} exposures that reach a row by a gust beyond the cut");
    both.done();
}

/// The lamp itself is not in order, only the condition: what comes on sooner may go dark sooner. Both end at the cut the other way,
/// and the higher has twenty more samples at the cut before.
#[test]
fn not_promised_for_the_lamp_of_the_higher_run() {
    let both = Both::new();
    let higher = [vec![0; 20], vec![CUT; 81], vec![-CUT; 59]].concat();
    let mut lower = higher.clone();
    lower[20..40].fill(0);
    let [lower, higher] = [lower, higher].map(|shears| calm_run(&both, &shears, 400));
    let conditions = [&lower, &higher].map(|run| {
        let holds = |&at: &usize| run.conditions[at][0];
        (0..160).filter(holds).collect::<Vec<_>>()
    });
    assert!(conditions[0].iter().all(|at| conditions[1].contains(at)));
    assert_eq!(conditions.map(|places| places[0]), [100, 80]);
    // each for 60 samples
    assert_eq!(lit(&lower, 2), (100..160).collect::<Vec<_>>());
    assert_eq!(lit(&higher, 2), (80..140).collect::<Vec<_>>());
    let out_of_order = lit(&lower, 2)
        .iter()
        .filter(|&&at| higher.alerts[at] != 2)
        .count();
    println!("compared {out_of_order} samples where only the lower's red lamp is lit");
    assert_eq!(out_of_order, 20);
    both.done();
}

/// The lamp may be lit sooner than at the end: shears at the cut at the start of an exposure light it at the 61st sample by another
/// window, whatever the row; at the end it is lit too.
#[test]
fn lit_sooner_by_another_window() {
    let both = Both::new();
    let mut tried = 0u64;
    for ((sign, alert), row) in ways_and_rows() {
        let at_the_cut = (row.sum() / CUT) as usize;
        let mut shears = exposed(CUT, at_the_cut, &vec![0; row.samples - at_the_cut]);
        shears[20 + at_the_cut] = row.sum() % CUT;
        shears.iter_mut().for_each(|held| *held *= sign);
        let run = calm_run(&both, &shears, 400);
        assert!(reaches(&run.shears, row, sign));
        let (first, end) = (lit(&run, alert)[0], 19 + row.samples);
        assert!(first == 20 + 60 && first < end, "{row:?}");
        assert_eq!(run.alerts[end], alert);
        tried += 1;
    }
    println!("compared {tried} exposures that light a lamp before their end");
    both.done();
}

/// 4.d.(7) and (8) of 000: waveforms as note (1) allows them, after zeros, on each axis: the row's alert and no other comes within
/// its limit, or none at all. Of every other shape the lamp is lit by the end of the exposure, which is within the limit.
#[test]
fn within_the_limits_of_the_rows() {
    let (mut rng, both) = (Rng::new(408), Both::new());
    let (before, mut waveforms) = (200, 0u64);
    let mut soonest = [[usize::MAX; 9]; 2];
    let mut latest = [[0; 9]; 2];
    for axis in AXES.into_iter().flat_map(|axis| [axis; 5]) {
        for ((way, (sign, alert)), (place, row)) in WAYS
            .into_iter()
            .enumerate()
            .flat_map(|way| rows().enumerate().map(move |row| (way, row)))
        {
            for (name, shape) in SHAPES {
                let is_allowed = name == "allowed";
                if row.limits.is_none() && !is_allowed {
                    continue;
                }
                let wave = shape(&mut rng, row, row.sum());
                if is_allowed {
                    let free = usize::from(row.first_step_is_free());
                    let steps = std::iter::once(&0).chain(&wave).zip(&wave).skip(free);
                    assert!(steps.clone().all(|(a, b)| (b - a).abs() <= 500), "{row:?}");
                    assert!(wave.iter().all(|held| (0..=row.highest()).contains(held)));
                }
                let mut shears = vec![0; before];
                shears.extend(wave.iter().map(|held| sign * held));
                let heights = vec![rng.within(50, 1_000); shears.len()];
                let name = format!("{name} {row:?} {sign} {axis:?}");
                let run = run_of(&both, &mut rng, &name, axis, &shears, &heights);
                waveforms += 1;
                if is_allowed {
                    assert!(meets_row(&run.alerts, before, alert, row.limits), "{name}");
                }
                let Some(limits) = row.limits else { continue };
                let first = lit(&run, alert)[0];
                let samples = first + 1 - before;
                assert!(samples <= row.samples && samples <= limits[usize::from(alert) - 1]);
                soonest[way][place] = soonest[way][place].min(samples);
                latest[way][place] = latest[way][place].max(samples);
            }
        }
    }
    println!(
        "compared {waveforms} waveforms of the rows with their limits: lit at the soonest after {:?} samples, at the latest after \
         {:?}",
        soonest.map(|way| way[2..].to_vec()),
        latest.map(|way| way[2..].to_vec())
    );
    for (place, row) in rows().enumerate().skip(2).take(6) {
        assert_eq!(latest.map(|way| way[place]), [row.samples; 2], "{row:?}");
    }
    both.done();
}
