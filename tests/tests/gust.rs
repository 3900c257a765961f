//! 02, A1: the held shear is cut before it enters the windows, and shown uncut. Gusts around the cut, exposures at it, windows that
//! the cut keeps dark or lets light, and entries beyond it that a lent state holds.

use windshear_tests::both::Both;
use windshear_tests::files::file_of_samples;
use windshear_tests::forged::{random_entries, LIMIT};
use windshear_tests::gen::*;
use windshear_tests::plain;
use windshear_tests::reference::{entry, shear, Answer, Sample, CUT, WINDOWS};

/// What a list is answered, the held shears that the answers show, and the entry of each sample.
struct Told {
    answers: Vec<Answer>,
    shears: Vec<i32>,
    entries: Vec<i32>,
}

impl Told {
    /// The first sample with this alert.
    fn first(&self, alert: u8) -> Option<usize> {
        self.answers.iter().position(|a| a.alert == alert)
    }
}

/// The library is told the list in both forms, the plain program too, and a run of it shows the same.
fn told(both: &Both, list: &[Sample]) -> Told {
    let mut pair = both.fresh("told");
    let list = &numbered(list, 0, |_| 1);
    let mut by_plain = plain::Unit::new();
    let mut entries = Vec::new();
    let answers = list.iter().map(|s| {
        let answer = pair.offer(s).unwrap();
        assert_eq!(by_plain.offer(s), Ok(answer));
        entries.push(pair.state.entries().next().unwrap());
        answer
    });
    let answers: Vec<_> = answers.collect();
    let bytes = both.run(&file_of_samples(list), 10 * list.len()).unwrap();
    for (answer, bytes) in answers.iter().zip(bytes.chunks(10)) {
        assert_eq!(bytes[0], answer.alert);
        assert_eq!(bytes[4..8], answer.shear.to_le_bytes());
    }
    let shears = answers.iter().map(|a| a.shear).collect();
    Told {
        answers,
        shears,
        entries,
    }
}

/// Whether some window of a plain list, the newest last, is met at each of its places, upward for sign 1, downward for -1.
fn met_in(list: &[i32], sign: i64) -> Vec<bool> {
    let at = |now: usize| {
        WINDOWS.iter().any(|&(samples, value)| {
            let window = &list[(now + 1).saturating_sub(samples)..=now];
            let sum: i64 = window.iter().map(|&entry| i64::from(entry)).sum();
            sign * sum >= samples as i64 * value
        })
    };
    (0..list.len()).map(at).collect()
}

/// The winds and airspeeds that hold a shear with so much change of along wind: a few, spread over the airspeeds.
fn gusts_of(held: i32, change: i32) -> Vec<(i32, i32)> {
    let at = |airspeed: i32| {
        // what the vertical wind is to add, at this airspeed
        let rest = f64::from(held) - f64::from(shear(change, 1, 0, airspeed));
        let near = (-rest * f64::from(airspeed) / 100_000.0).round() as i32;
        let fits = |v: &i32| v.abs() <= 10_000 && shear(change, 1, *v, airspeed) == held;
        (near - 1..=near + 1).find(fits).map(|v| (v, airspeed))
    };
    let all: Vec<_> = (6_000..=60_000).filter_map(at).collect();
    let step = (all.len() / 5).max(1);
    all.into_iter().step_by(step).collect()
}

/// Gusts at the cut and just beside it, either way, by the vertical wind, by the along wind or by both: the answer shows each as it
/// is held, and what enters is cut.
#[test]
fn around_the_cut() {
    let both = Both::new();
    let named = [
        (34_499, 0, (-10_000, 28_986)),
        (34_500, 0, (-3_450, 10_000)),
        (34_501, 0, (-10_000, 28_985)),
        (33_574, 32, (0, 14_000)),
        (34_623, 33, (0, 14_000)),
        (2_098_349, 2_000, (0, 14_000)),
        (41_966_987, 40_000, (0, 14_000)),
    ];
    let mut found = Vec::new();
    for change in [-90, -1, 0, 1, 20, 32, 33, 34, 160] {
        for held in CUT - 2..=CUT + 2 {
            let gusts = gusts_of(held, change);
            assert!(gusts.len() >= 5, "{held} by {change}");
            found.extend(gusts.into_iter().map(|gust| (held, change, gust)));
        }
    }
    let mut tried = 0u64;
    for (held, change, (vertical, airspeed)) in named.into_iter().chain(found) {
        for (sign, _) in WAYS {
            let before = Sample {
                along: -sign * change / 2,
                ..CALM
            };
            let gust = Sample {
                along: before.along + sign * change,
                vertical: sign * vertical,
                airspeed,
                ..CALM
            };
            let after = Sample {
                vertical: 0,
                ..gust
            };
            let told = told(&both, &[before, gust, after]);
            assert_eq!(told.shears, [0, sign * held, 0], "{gust:?}");
            assert_eq!(told.entries, [0, sign * held.min(CUT), 0], "{gust:?}");
            tried += 1;
        }
    }
    println!("compared {tried} gusts and their entries around the cut");
    both.done();
}

/// The windows that so many samples of a flat shear meet, and that one sample fewer meets.
fn flat(both: &Both, n: i32, (vertical, airspeed): (i32, i32), sign: i32) -> [Vec<usize>; 2] {
    let list = plateau(10, 0, n, (sign * vertical, airspeed));
    told(both, &list);
    let mut pair = both.fresh("flat");
    let mut met = Vec::new();
    for s in &list[..10 + n as usize] {
        pair.offer(s).unwrap();
        met.push(pair.windows_met(sign.into()));
    }
    assert!(met[..8 + n as usize].iter().all(Vec::is_empty));
    [met.pop().unwrap(), met.pop().unwrap()]
}

/// Flat exposures at the cut and beyond it: 60 samples meet no window, and 61 meet all six, however strong they are. Below it the
/// last few hundred-thousandths decide which.
#[test]
fn plateaus_at_the_cut() {
    let both = Both::new();
    let all = WINDOWS.map(|(samples, _)| samples);
    let n = EXPOSURE + 1;
    for (sign, alert) in WAYS {
        for held in [CUT - 1, CUT, CUT + 1, 35_000, 71_429, 100_000, 166_667] {
            for pair in plateaus(held) {
                assert_eq!(flat(&both, n, pair, sign), [all.to_vec(), vec![]], "{held}");
            }
        }
        for (held, met) in [
            (34_427, &all[..]),
            (34_426, &[180, 160, 140, 120]),
            (34_407, &[180, 160, 140, 120]),
            (34_406, &[160, 140, 120]),
            (34_403, &[160, 120]),
            (34_387, &[160, 120]),
            (34_386, &[]),
        ] {
            for pair in plateaus(held) {
                assert_eq!(flat(&both, n, pair, sign)[0], met, "{held}");
            }
        }
        // by the along wind alone: 33 a sample is beyond the cut, 390 far beyond it
        for change in [33, 34, 390] {
            let list = series(n + 1, |i, s| s.along = sign * (change * i - 12_000));
            let told = told(&both, &list);
            assert_eq!(told.entries[1..], [sign * CUT; 61], "{change}");
            assert_eq!(told.first(alert), Some(61), "{change}");
        }
    }
    both.done();
}

/// After 60 samples beyond the cut the next one decides, to a hundred-thousandth: what has entered is 60 times the cut, and
/// neither one more nor one less each.
#[test]
fn one_more_after_the_cut() {
    let both = Both::new();
    let least = least_after_exposure();
    assert_eq!(least, [30_000, 28_800, 27_600, 28_600, 27_600, 30_000]);
    for (sign, alert) in WAYS {
        for held in least.into_iter().flat_map(|least| least - 1..=least) {
            for pair in plateaus(held) {
                let list = one_more(sign, pair);
                let at = 20 + EXPOSURE as usize;
                let lit = held >= 27_600;
                assert_eq!(told(&both, &list).first(alert), lit.then_some(at), "{held}");
                let mut told_so_far = both.fresh("one more");
                for s in &list[..=at] {
                    told_so_far.offer(s).unwrap();
                }
                let windows = WINDOWS.iter().zip(least);
                let met = windows.filter(|(_, least)| held >= *least);
                let met: Vec<_> = met.map(|(window, _)| window.0).collect();
                assert_eq!(told_so_far.windows_met(sign.into()), met, "{held}");
            }
        }
    }
    both.done();
}

/// Gusts that would meet a window uncut, alone or several together, and do not: no lamp comes on.
#[test]
fn met_only_without_the_cut() {
    let both = Both::new();
    let several: [&[(i32, i32)]; 6] = [
        &[(5, 2_000)],
        &[(5, 20_000)],
        &[(5, 700), (30, 700), (90, 700)],
        &[(5, 400), (6, 400), (7, 400), (8, 400), (9, 400)],
        &[(5, 4_000), (40, -4_000), (80, 4_000), (120, -4_000)],
        &[(5, -15_000), (60, 20_000), (61, -15_000), (150, 20_000)],
    ];
    let mut would = 0u64;
    for steps in several {
        for (sign, _) in WAYS {
            let list = stepped(400, steps, |_, s| s.along *= sign);
            let told = told(&both, &list);
            let uncut = met_in(&told.shears, sign.into());
            assert!(uncut.contains(&true), "{steps:?}");
            would += uncut.iter().filter(|&&met| met).count() as u64;
            for sign in [1, -1] {
                assert!(!met_in(&told.entries, sign).contains(&true), "{steps:?}");
            }
            assert!(told.answers.iter().all(|a| a.alert == 0), "{steps:?}");
        }
    }
    println!("at {would} samples only the uncut shears would meet a window");
    both.done();
}

/// A flat exposure of so many samples, with a gust the other way at one of them, or at the one before it for 0.
fn with_gust(gust: i32, at: usize, n: i32, held: i32, sign: i32) -> Vec<Sample> {
    let (vertical, airspeed) = plateaus(held)[0];
    let mut list = plateau(10, 0, n, (sign * vertical, airspeed));
    for s in &mut list[9 + at..] {
        s.along = -sign * gust;
    }
    list
}

/// A gust the other way is cut too: an exposure around it lights the lamp sooner than it would uncut, or lights it where it would
/// not at all.
#[test]
fn met_only_with_the_cut() {
    let both = Both::new();
    let first = |list: &[i32], sign: i32| met_in(list, sign.into()).iter().position(|&met| met);
    for (sign, alert) in WAYS {
        // One entry more makes up for the gust before the exposure, two for a gust within it, whose own sample is lost too. Uncut,
        // a gust before it would have to leave the window of 100 first, and one within it never lets the rest suffice.
        for (at, n, lit, uncut) in [(0, 110, 62, Some(100)), (40, 63, 63, None)] {
            let told = told(&both, &with_gust(2_000, at, n, CUT, sign));
            assert_eq!(told.first(alert), Some(9 + lit));
            assert_eq!(first(&told.shears, sign), uncut.map(|n| 9 + n));
        }
    }
    let (mut sooner, mut only) = (0u64, 0u64);
    for gust in [100, 1_000, 2_000, 20_000] {
        for (at, n) in [0, 30, 50]
            .into_iter()
            .flat_map(|at| [65, 80, 120, 220].map(|n| (at, n)))
        {
            for (held, (sign, alert)) in [21_000, 27_000, CUT]
                .into_iter()
                .flat_map(|held| WAYS.map(|way| (held, way)))
            {
                let told = told(&both, &with_gust(gust, at, n, held, sign));
                assert_eq!(told.entries[9 + at], -sign * CUT);
                let (lit, uncut) = (first(&told.entries, sign), first(&told.shears, sign));
                assert_eq!(told.first(alert), lit);
                match (lit, uncut) {
                    (Some(lit), Some(uncut)) => {
                        assert!(lit <= uncut);
                        sooner += u64::from(lit < uncut);
                    }
                    _ => {
                        assert_eq!(uncut, None);
                        only += u64::from(lit.is_some());
                    }
                }
            }
        }
    }
    println!("of the exposures, {sooner} light a lamp sooner by the cut, and {only} at all");
    assert!(sooner > 50 && only > 20);
    both.done();
}

/// Random gusts of every size over random drafts near the windows' values: where a window is met by the cut entries alone, or by the
/// uncut shears alone, either way.
#[test]
fn random_gusts_with_and_without() {
    let (mut rng, both) = (Rng::new(110), Both::new());
    let mut times = [[0u64; 2]; 2];
    for _ in 0..200 {
        let (mut along, mut draft) = (0, 0);
        let often = rng.pick(&[5, 20, 60]);
        let list = series(600, |i, s| {
            if i % 200 == 0 {
                draft = rng.within(-2_600, 2_600);
            }
            if rng.one_in(often) {
                let size = rng.pick(&[30, 60, 400, 2_500]);
                along = i32::clamp(along + rng.within(-size, size), -20_000, 20_000);
            }
            (s.along, s.vertical, s.airspeed) = (along, draft, 10_000);
        });
        let told = told(&both, &list);
        for (k, (sign, _)) in WAYS.into_iter().enumerate() {
            let by = [&told.entries, &told.shears].map(|list| met_in(list, sign.into()));
            for (cut, uncut) in by[0].iter().zip(&by[1]) {
                times[k][0] += u64::from(*cut && !uncut);
                times[k][1] += u64::from(*uncut && !cut);
            }
        }
    }
    let [[up, up_uncut], [down, down_uncut]] = times;
    println!(
        "windows met by the cut alone: upward at {up} samples, downward at {down}; by its lack alone: {up_uncut} and {down_uncut}"
    );
    assert!(times.as_flattened().iter().all(|&n| n > 3_000));
    both.done();
}

/// Entries that a lent state may hold, the newest first: beyond the cut, up to the limit of refusal 8 either way.
fn lent_entries(rng: &mut Rng) -> Vec<(String, Vec<i32>)> {
    let mut all = Vec::new();
    for size in [CUT + 1, 2_100_000, 10_000_000, LIMIT] {
        for sign in [1, -1] {
            let value = sign * size;
            all.push((format!("all {value}"), vec![value; 200]));
            let turning = (0..200).map(|i| if i % 2 == 0 { value } else { -value });
            all.push((format!("turning {value}"), turning.collect()));
            for age in [0, 1, 98, 99, 100, 119, 139, 159, 178, 179, 198, 199] {
                let mut one = vec![0; 200];
                one[age] = value;
                all.push((format!("{value} at {age}"), one));
            }
        }
    }
    for k in 0..40 {
        let mut some = random_entries(rng);
        let keep = rng.pick(&[1, 2, 10, 60]);
        for entry in &mut some {
            if !rng.one_in(keep) {
                *entry = rng.within(-CUT, CUT);
            }
        }
        all.push((format!("random {k}"), some));
    }
    all
}

/// A lent state with entries beyond the cut is answered by them, as they are, until they have left the windows; what comes in is cut.
#[test]
fn lent_entries_beyond_the_cut() {
    let (mut rng, both) = (Rng::new(111), Both::new());
    let mut lit = [0u64; 3];
    for (name, held) in lent_entries(&mut rng) {
        let mut list = match rng.within(0, 3) {
            0 => gusts(&mut rng, 260),
            1 => any(&mut rng, 260),
            2 => calm_air(&mut rng, 260),
            _ => met(rng.pick(&[1, -1]), 200, |_, _| ()),
        };
        for s in &mut list {
            s.height = 400;
        }
        let mut pair = both.holding(&name, &held);
        // the oldest first
        let mut plain: Vec<_> = held.iter().rev().copied().collect();
        for (i, s) in list.iter().enumerate() {
            let answer = pair.offer(s).unwrap();
            plain.push(entry(answer.shear));
            let newest = plain.iter().rev().copied().take(200);
            assert!(pair.state.entries().eq(newest), "{name}: entries after {i}");
            let [up, down] = [1, -1].map(|sign| met_in(&plain[plain.len() - 200..], sign)[199]);
            assert!(!up || answer.alert == 2, "{name}: {i}");
            assert!(up || !down || answer.alert != 0, "{name}: {i}");
            lit[usize::from(answer.alert)] += 1;
        }
        assert!(list.len() > 200);
        assert!(
            pair.state.entries().all(|entry| entry.abs() <= CUT),
            "{name}"
        );
    }
    assert!(lit.iter().all(|&times| times > 3_000), "{lit:?}");
    println!(
        "compared {} answers to lent entries beyond the cut",
        lit.iter().sum::<u64>()
    );
    both.done();
}
