//! 02, A6: the host drops frames. Numbers that go round, samples that stand for several frames, lamps, voices, counts and commands
//! that run in frames, beside the paper's own arithmetic, the reference, the plain program and the library.

use windshear::State;
use windshear_tests::both::Both;
use windshear_tests::gen::*;
use windshear_tests::library::{expected, sent};
use windshear_tests::plain;
use windshear_tests::reference::{
    frames, refusal, shear, Answer, Sample, Unit, CUT, MOST_FRAMES, WINDOWS,
};

/// The list told to the library in both forms, to the reference and to the plain program; the answers of the accepted samples.
fn told(both: &Both, name: &str, list: &[Sample]) -> Vec<Answer> {
    let (mut pair, mut by_plain) = (both.fresh(name), plain::Unit::new());
    let answers = list.iter().map(|s| {
        let answer = pair.offer(s);
        assert_eq!(by_plain.offer(s), answer, "{name}: {s:?}");
        answer
    });
    answers.collect::<Vec<_>>().into_iter().flatten().collect()
}

/// Every number after every kind of kept one: elapsed frames of 1 to 20 are accepted, all others refused by 21. A first sample is
/// accepted whatever its number.
#[test]
fn every_number_after_another() {
    let both = Both::new();
    let mut accepted = 0u64;
    for first in [0, 1, 20, 21, 32_767, 32_768, 65_515, 65_516, 65_535] {
        let mut pair = both.fresh("one before");
        let before = Sample {
            frame: first,
            ..CALM
        };
        assert!(pair.offer(&before).is_ok());
        for frame in 0..=u16::MAX {
            let s = Sample { frame, ..CALM };
            let answer = pair.unit.clone().offer(&s);
            let (found, after) = pair.state.offer(sent(&s));
            let mut lent = pair.state;
            assert_eq!(lent.offer_lent(sent(&s)), found);
            assert_eq!((found, lent), (expected(&answer), after), "{first} {frame}");
            let elapsed = (i32::from(frame) - i32::from(first)).rem_euclid(65_536);
            let fits = (1..=20).contains(&elapsed);
            assert_eq!(found.refusal, if fits { 0 } else { 21 }, "{first} {frame}");
            assert_eq!(after == pair.state, !fits, "{first} {frame}");
            accepted += u64::from(fits);
        }
        let fresh = State::fresh().offer(sent(&before));
        assert_eq!((fresh.0.refusal, fresh.1.core.frame), (0, first));
    }
    println!("compared {} answers and states after every number", 9 << 17);
    assert_eq!(accepted, 9 * 20);
}

/// 8, then 11 to 20, then 21: each field bad with each elapsed number, good and bad.
#[test]
fn a_bad_field_goes_before_21() {
    let (mut rng, both) = (Rng::new(601), Both::new());
    let mut came = [0u64; 22];
    for k in 0..4_000 {
        let mut pair = both.fresh("bad fields");
        let s = Sample {
            frame: rng.draw() as u16,
            ..CALM
        };
        pair.offer(&s).unwrap();
        let mut fields = CALM.fields();
        let field = k % 11;
        if field < 10 {
            fields[field] = i32::MAX;
        }
        let elapsed = if rng.one_in(2) {
            rng.within(0, 21) as u16
        } else {
            rng.pick(&REFUSED_FRAMES)
        };
        let bad = Sample {
            frame: s.frame.wrapping_add(elapsed),
            ..Sample::from_fields(fields)
        };
        let number = match (field, elapsed) {
            (0..=9, _) => 11 + field as u8,
            (_, 1..=20) => 0,
            _ => 21,
        };
        assert_eq!(pair.offer(&bad).err().unwrap_or(0), number);
        came[usize::from(number)] += 1;
        let mut forged = pair.state;
        forged.core.red = 601;
        assert_eq!(forged.offer(sent(&bad)), (expected(&Err(8)), forged));
    }
    assert!(
        came[11..].iter().chain(&came[..1]).all(|&n| n > 100),
        "{came:?}"
    );
    both.done();
}

/// A sample refused by 21 is as if never offered: the kept number stays, so that the next may come up to 20 frames after the last
/// accepted one. The answers are those of the list without it.
#[test]
fn refused_by_21_as_if_never_offered() {
    let (mut rng, both) = (Rng::new(602), Both::new());
    let (mut refused, mut lit) = (0, 0);
    for k in 0..120 {
        let n = rng.within(50, 400);
        let list = [gusts, any, turbulence][k % 3](&mut rng, n);
        let list = dropping(&mut rng, &list);
        let answers = told(&both, "alone", &list);
        let among = with_refused(&mut rng, list.clone());
        let good = among.iter().filter(|s| refusal(s) == 0);
        refused += good.count() - list.len();
        assert_eq!(told(&both, "among refused ones", &among), answers);
        lit += answers.iter().filter(|a| a.alert != 0).count();
    }
    println!("{refused} samples were refused by 21 alone; {lit} answers have a lamp lit");
    assert!(refused > 1_000 && lit > 5_000);
    both.done();
}

/// Where the numbers start says nothing: the same answers from 0 and across 65,535 to 0, whatever the elapsed frames.
#[test]
fn numbers_go_round() {
    let (mut rng, both) = (Rng::new(603), Both::new());
    let mut round = 0u64;
    for k in 0..60 {
        let gusty = gusts(&mut rng, 120);
        let elapsed: Vec<_> = gusty
            .iter()
            .map(|_| {
                if k < 20 {
                    k + 1
                } else {
                    rng.within(1, 20) as u16
                }
            })
            .collect();
        let from = |first| numbered(&gusty, first, |i| elapsed[i]);
        let want = told(&both, "from 0", &from(0));
        assert_eq!(want.len(), gusty.len());
        for first in [
            65_535,
            65_534,
            65_516,
            65_515,
            65_400,
            32_768,
            rng.draw() as u16,
        ] {
            let list = from(first);
            assert_eq!(told(&both, "from another", &list), want, "{first}");
            round += list
                .windows(2)
                .filter(|two| two[1].frame < two[0].frame)
                .count() as u64;
        }
    }
    println!("{round} times the numbers went round");
    assert!(round > 250);
    both.done();
}

/// The change is divided before the one rounding: so n times the change over n frames is held as the change over one, and signs turned
/// give the same size. Figures worked out by hand beside it.
#[test]
fn the_divided_change() {
    let (mut rng, both) = (Rng::new(604), Both::new());
    let over = |change, frames, vertical, airspeed| {
        let shown = both.shear_over(change, frames, vertical, airspeed);
        assert_eq!(shown, shear(change, frames, vertical, airspeed));
        shown
    };
    // 2,098,349.3.. over one
    let of_2000 = [(1, 2_098_349), (2, 1_049_175), (7, 299_764), (20, 104_917)];
    for (frames, held) in of_2000 {
        assert_eq!(over(2_000, frames, 0, 14_000), held);
        assert_eq!(over(-2_000, frames, 0, 14_000), -held);
    }
    // the vertical wind is not divided
    assert_eq!(over(0, 20, -1_000, 14_000), 7_143);
    let mut apart = 0u64;
    for _ in 0..20_000 {
        let n = rng.within(1, 20);
        let change = rng.within(-2_000, 2_000);
        let (vertical, airspeed) = (rng.within(-10_000, 10_000), rng.within(6_000, 60_000));
        let once = over(n * change, n as u16, vertical, airspeed);
        assert_eq!(once, over(change, 1, vertical, airspeed));
        assert_eq!(once, -over(-n * change, n as u16, -vertical, airspeed));
        let other = rng.within(-40_000, 40_000);
        let held = over(other, n as u16, vertical, airspeed);
        let parts = shear(other, n as u16, 0, airspeed) + shear(0, 1, vertical, airspeed);
        assert!((held - parts).abs() <= 1);
        apart += u64::from(held != parts);
    }
    println!("{apart} shears differ from the sum of their rounded parts");
    assert!(apart > 2_000);
    both.done();
}

/// A shear enters once for each frame and is judged once: samples of 1 to 20 frames at a shear meet each window exactly where so many
/// entries do, as the same entries one by one would, at the samples' last frames.
#[test]
fn a_shear_enters_once_for_each_frame() {
    let (mut rng, both) = (Rng::new(605), Both::new());
    let mut judged = 0u64;
    for (samples, value) in WINDOWS {
        for held in [value as i32 - 1, value as i32, CUT, CUT + 1_000] {
            let (vertical, airspeed) = plateaus(held)[0];
            for each in 0..=MOST_FRAMES {
                let list = series(230, |_, s| (s.vertical, s.airspeed) = (vertical, airspeed));
                let list = numbered(&list, 9, |_| match each {
                    0 => rng.within(1, 20) as u16,
                    _ => each,
                });
                let (mut pair, mut entries) = (both.fresh("flat"), Vec::new());
                let mut last = None;
                for s in &list {
                    pair.offer(s).unwrap();
                    let n = frames(last, s).unwrap();
                    last = Some(s);
                    entries.resize(entries.len() + usize::from(n), held.min(CUT));
                    let met = |n: usize, value: i64| {
                        entries
                            .iter()
                            .rev()
                            .take(n)
                            .map(|&e| i64::from(e))
                            .sum::<i64>()
                            >= n as i64 * value
                    };
                    let windows: Vec<_> = WINDOWS
                        .iter()
                        .filter(|w| met(w.0, w.1))
                        .map(|w| w.0)
                        .collect();
                    assert_eq!(pair.windows_met(1), windows, "{samples} {held} {each}");
                    judged += 1;
                }
            }
        }
    }
    println!("compared {judged} judgements of flat shears over frames");
    // six windows, four shears, one to 20 frames or a mixture, and each list's samples
    assert_eq!(judged, 6 * 4 * 21 * 230);
    both.done();
}

/// Frames of a list from the sample where a lamp comes on: that one's, and those of each later one.
fn patterns(rng: &mut Rng) -> Vec<Vec<u16>> {
    let constant = (1..=MOST_FRAMES).flat_map(|each| {
        [1, 2, MOST_FRAMES].map(|first| {
            let later = vec![each; 700 / usize::from(each) + 3];
            [vec![first], later].concat()
        })
    });
    let mut all: Vec<_> = constant.collect();
    for _ in 0..150 {
        let most = rng.pick(&[2, 5, 20, 20]);
        let n = 1_300 / (most + 1) + 3;
        all.push((0..n).map(|_| rng.within(1, most) as u16).collect());
    }
    // to just before an end, at it, and past it
    for before in [58, 59, 60, 22, 23, 24, 70, 71, 72, 598, 599, 600] {
        for jump in [1, 2, 13, MOST_FRAMES] {
            all.push([vec![7], vec![1; before], vec![jump; 5]].concat());
        }
    }
    all
}

/// The answers from the sample where a lamp comes on, and how many frames have passed since at each; the samples after the exposure
/// stand for those frames.
fn from_coming_on(
    both: &Both,
    sign: i32,
    over: &[u16],
    edit: impl Fn(i32, &mut Sample),
) -> Vec<(u64, Answer)> {
    let list = condition_at(sign, over.len() as i32, |i| i == 0, edit);
    let exposure = EXPOSURE as usize;
    let list = numbered(&list, 65_000, |i| {
        if i < exposure {
            1
        } else {
            over[i - exposure]
        }
    });
    let answers = told(both, "from the coming-on", &list).split_off(exposure);
    let mut passed = 0;
    let passed = over.iter().skip(1).map(|&n| {
        passed += u64::from(n);
        passed
    });
    std::iter::once(0).chain(passed).zip(answers).collect()
}

/// A lamp comes on at its sample's last frame, where none have passed, and stays while fewer than 60 have at a sample's last.
#[test]
fn a_hold_lasts_while_fewer_than_60_frames_have_passed() {
    let (mut rng, both) = (Rng::new(606), Both::new());
    let mut jumped = 0u64;
    for (over, (sign, alert)) in patterns(&mut rng)
        .iter()
        .flat_map(|over| WAYS.map(|way| (over, way)))
    {
        let answers = from_coming_on(&both, sign, over, |_, _| ());
        for (passed, answer) in &answers {
            assert_eq!(
                answer.alert,
                if *passed < 60 { alert } else { 0 },
                "{passed} of {over:?}"
            );
        }
        jumped += u64::from(answers.iter().all(|(passed, _)| *passed != 60));
    }
    println!("{jumped} holds end past the 60th frame");
    assert!(jumped > 100);
    both.done();
}

/// The condition after so many frames: while the lamp is held nothing starts anew; where the hold's end was passed over and the
/// condition holds, the lamp stays lit and no coming-on is told; after a dark sample it comes on anew.
#[test]
fn the_condition_again_after_frames() {
    let both = Both::new();
    let mut kinds = [0u64; 3];
    for each in 1..=MOST_FRAMES {
        for again in 1..=70 {
            let list = condition_at(
                1,
                150,
                |i| i == 0 || i == again,
                |i, s| {
                    s.pitch = if i == again { 9_000 } else { 5_000 };
                    s.deselect = (i == 0).into();
                },
            );
            let list = numbered(&list, 0, |i| if i as i32 <= EXPOSURE { 1 } else { each });
            let answers = told(&both, "again", &list).split_off(EXPOSURE as usize);
            // the sample before it is still lit
            let lit = u64::from(each) * (again as u64 - 1) < 60;
            // deselected at first, guidance tells a coming-on
            let answer = answers[again as usize];
            assert_eq!(answer.alert, 2);
            assert_eq!(answer.guidance, !lit, "{each} {again}");
            let held = u64::from(each) * (again as u64) < 60;
            kinds[usize::from(lit) + usize::from(held)] += 1;
            for later in 1..150 - again as usize {
                let since = if lit { again as usize + later } else { later };
                let lit = usize::from(each) * since < 60;
                assert_eq!(
                    answers[again as usize + later].alert == 2,
                    lit,
                    "{each} {again} {later}"
                );
            }
        }
    }
    println!("conditions again: {kinds:?} after the hold, just past its end, within it");
    assert!(kinds.iter().all(|&n| n >= 20));
    both.done();
}

/// The sample where the voice starts is the first of its first 24 frames, whatever it stands for; the cycle is read at a sample's last.
#[test]
fn a_voice_has_three_cycles_of_24_frames() {
    let (mut rng, both) = (Rng::new(607), Both::new());
    let mut jumped = 0u64;
    for over in patterns(&mut rng) {
        let answers = from_coming_on(&both, 1, &over, |_, _| ());
        let mut cycles = [0u64; 4];
        for (passed, answer) in &answers {
            let cycle = match passed + 1 {
                1..=24 => 1,
                25..=48 => 2,
                49..=72 => 3,
                _ => 0,
            };
            assert_eq!(answer.voice, cycle, "{passed} of {over:?}");
            cycles[usize::from(cycle)] += 1;
        }
        // a mode change silences it, and frees it
        let silenced = from_coming_on(&both, 1, &over, |i, s| s.mode = (i < 2).into());
        assert!(silenced.iter().skip(2).all(|(_, answer)| answer.voice == 0));
        jumped += u64::from(answers.iter().all(|(passed, _)| *passed != 72));
    }
    println!("{jumped} voices end past their 72nd frame");
    assert!(jumped > 50);
    both.done();
}

/// The sample that starts guidance counts one, if it counts; each later one its frames; one that does not puts the count to 0. It ends
/// where the count reaches 600 or goes past it.
#[test]
fn guidance_ends_at_600_frames_or_past_them() {
    let (mut rng, both) = (Rng::new(608), Both::new());
    let (mut ended, mut past) = (0u64, 0u64);
    for over in patterns(&mut rng) {
        let broken = rng.within(1, over.len() as i32 - 1);
        // no sample fails to count; the first; or another
        for fails in [-1, 0, broken] {
            let answers = from_coming_on(&both, 1, &over, |i, s| {
                (s.climb, s.airspeed) = ((i != fails).into(), 13_001);
            });
            let (mut count, mut on) = (0, true);
            for (i, (_, answer)) in answers.iter().enumerate() {
                let more = if i == 0 { 1 } else { over[i] };
                count = if i as i32 == fails { 0 } else { count + more };
                ended += u64::from(on && count >= 600);
                past += u64::from(on && count > 600);
                on &= count < 600;
                assert_eq!(answer.guidance, on, "{i} of {over:?}, {fails} fails");
            }
        }
    }
    println!("{ended} guidances end, {past} of them past the 600th frame");
    assert!(ended > 200 && past > 100);
    both.done();
}

/// The command may move 75 for each frame, never past 15,000, and is then cut to the cap once. The starting sample does not move it.
#[test]
fn the_command_moves_75_for_each_frame() {
    let (mut rng, both) = (Rng::new(609), Both::new());
    let mut at_once = 0u64;
    for over in patterns(&mut rng) {
        let any = rng.within(-30_000, 30_000);
        for pitch in [5_000, 14_999, 15_000, 15_001, 27_000, 30_000, -30_000, any] {
            // some caps last, so that the command comes up to them and back down
            let stalls: Vec<_> = (0..8)
                .map(|_| rng.pick(&[30_000, 27_001, 20_000, 14_000, 3_000, -10_000]))
                .collect();
            let stall = |i: i32| stalls[i.max(0) as usize / 9 % 8];
            let answers = from_coming_on(&both, 1, &over, |i, s| {
                (s.pitch, s.stall) = (pitch, stall(i))
            });
            let mut command = pitch;
            for (i, (_, answer)) in answers.iter().enumerate() {
                let most = if i == 0 { 0 } else { 75 * i32::from(over[i]) };
                let rest = 15_000 - command;
                at_once += u64::from(rest != 0 && rest.abs() < most && most > 75);
                command += rest.clamp(-most, most);
                command = command.min(27_000).min(stall(i as i32));
                assert!(answer.guidance);
                assert_eq!(answer.command, command, "{i} of {over:?}");
            }
        }
    }
    println!("{at_once} commands come to 15,000 by less than a whole step");
    assert!(at_once > 1_000);
    both.done();
}

/// Long stretches of the most frames: each sample turns the ring by a tenth, and every window is full after ten of them.
#[test]
fn long_stretches_of_20() {
    let (mut rng, both) = (Rng::new(610), Both::new());
    let mut alerts = [0u64; 3];
    for make in [gusts, any, turbulence, calm_air] {
        let list = numbered(&make(&mut rng, 4_000), 7, |_| MOST_FRAMES);
        let list = with_refused(&mut rng, list);
        for answer in told(&both, "long stretches", &list) {
            alerts[usize::from(answer.alert)] += 1;
        }
    }
    println!("of the answers {alerts:?} have each alert");
    assert!(alerts.iter().all(|&n| n > 500));
    both.done();
}

/// Frames between two samples are all the second's: a list with frames dropped is not the list of the samples alone, nor that of
/// samples repeated; only where one sample is told again for each frame, its change given in equal parts, are the entries the same.
#[test]
fn as_if_told_frame_by_frame() {
    let (mut rng, both) = (Rng::new(611), Both::new());
    let mut judged = 0u64;
    for _ in 0..60 {
        let mut along = 0;
        let mut last = None;
        let (mut dropped, mut each) = (Vec::new(), Vec::new());
        for s in gusts(&mut rng, 200) {
            let n = if last.is_some() { rng.within(1, 20) } else { 1 };
            let step = rng
                .within(-30, 30)
                .clamp((-20_000 - along) / 20, (20_000 - along) / 20);
            for k in 1..=n {
                let along = along + if last.is_some() { k * step } else { 0 };
                each.push(Sample { along, ..s });
            }
            along = each[each.len() - 1].along;
            last = each.last().copied();
            dropped.push(Sample {
                along,
                frame: (each.len() - 1) as u16,
                ..s
            });
        }
        let each = numbered(&each, 0, |_| 1);
        let (mut one, mut other) = (Unit::new(), both.fresh("dropped"));
        let mut told = 0;
        for s in &dropped {
            let answer = other.offer(s).unwrap();
            while told <= usize::from(s.frame) {
                assert_eq!(one.offer(&each[told]).unwrap().shear, answer.shear);
                told += 1;
            }
            assert_eq!(one.last_entries(200), other.unit.last_entries(200));
            assert_eq!(one.frames(), other.unit.frames());
            judged += 1;
        }
    }
    println!("compared {judged} samples with the same told frame by frame");
    both.done();
}
