//! The proved unit beside the reference: every answer and every state after each sample, in the plain form and lent.

use std::collections::{BTreeMap, HashSet};
use windshear::{Core, Sample, State};
use windshear_tests::both::Both;
use windshear_tests::forged::{after, forged, some_frames, step, COUNTERS, LIMIT};
use windshear_tests::gen::{self, all_lists, dropped_lists, random_sample, Rng};
use windshear_tests::library::{expected, sent, with_entries};
use windshear_tests::reference::{CUT, MOST_FRAMES};

/// At every sample of every list the answer and the state are the reference's, within the bounds that refusal 8 names; and the
/// lists reach every event. The events are told by the reference's counters, which do not stop.
#[test]
fn every_list_answers_and_leaves_what_the_reference_does() {
    let both = Both::new();
    let mut refusals = HashSet::new();
    let mut seen = BTreeMap::new();
    let mut answers = 0u64;
    for (name, list) in all_lists().into_iter().chain(dropped_lists()) {
        let mut pair = both.fresh(&name);
        let mut last = None;
        let (mut red_for, mut amber_for, mut counted) = (0, 0, None);
        let (mut voice_for, mut seen_frames, mut command) = (0, 0, 0);
        for s in &list {
            let answer = match pair.offer(s) {
                Ok(answer) => answer,
                Err(number) => {
                    refusals.insert(number);
                    continue;
                }
            };
            answers += 1;
            let unit = &pair.unit;
            assert!(answer.shear.abs() <= 50_000_000);
            assert!((-30_000..=27_000).contains(&answer.command));
            assert!(answer.guidance || answer.command == 0);
            assert!(answer.guidance == unit.guidance_counted().is_some());
            assert!(unit.guidance_counted() < Some(600));
            let comes_on = unit.red_lit_for() == 1;
            let climbed = counted.is_some() && !answer.guidance && s.deselect == 0;
            let frames = unit.frames() - seen_frames;
            let mode_change = last.is_some_and(|mode| mode != s.mode);
            let to_15_000 = u64::from(15_000_i32.abs_diff(command));
            let events = [
                ("red", answer.alert == 2),
                ("amber", answer.alert == 1),
                ("voice", answer.voice > 0),
                ("guidance", answer.guidance),
                ("cut above", answer.shear > CUT),
                ("cut below", answer.shear < -CUT),
                ("voice 3", answer.voice == 3),
                ("voice after red", answer.voice > 0 && answer.alert != 2),
                ("red past its hold", unit.red_lit_for() > 60),
                ("red out at its hold", red_for == 60 && answer.alert != 2),
                ("amber past its hold", unit.amber_lit_for() > 60),
                ("red after amber", comes_on && amber_for > 0),
                ("amber after red", unit.amber_lit_for() == 1 && red_for > 0),
                ("coming-on with a mode change", comes_on && mode_change),
                (
                    "coming-on without voice",
                    comes_on && unit.voice_since() > 72,
                ),
                (
                    "coming-on during voice",
                    comes_on && (2..=72).contains(&unit.voice_since()),
                ),
                (
                    "coming-on deselected",
                    comes_on && counted.is_none() && s.deselect == 1,
                ),
                (
                    "coming-on during guidance",
                    comes_on && counted.is_some() && answer.guidance,
                ),
                ("climbed away", climbed),
                ("climbed away at a coming-on", climbed && comes_on),
                ("20 frames at once", frames == 20),
                (
                    "coming-on with more frames than one",
                    comes_on && frames > 1,
                ),
                (
                    "red out past its hold's end",
                    red_for > 0 && red_for < 60 && red_for + frames > 61 && answer.alert != 2,
                ),
                (
                    "voice out past its end",
                    (1..=72).contains(&voice_for) && unit.voice_since() > 73,
                ),
                (
                    "a cycle passed over",
                    voice_for > 0
                        && voice_for <= 24
                        && unit.voice_since() > 25
                        && answer.voice == 2,
                ),
                (
                    "climbed past 600",
                    climbed && counted.is_some_and(|n| n < 599 && n + frames > 600),
                ),
                (
                    "command at 15,000 sooner than a whole step",
                    counted.is_some()
                        && answer.command == 15_000
                        && frames > 1
                        && (1..75 * frames).contains(&to_15_000),
                ),
                (
                    "599 then a break",
                    counted == Some(599) && unit.guidance_counted() == Some(0),
                ),
                ("command at the cap", answer.command == 27_000),
                (
                    "command of zero shown",
                    answer.command == 0 && answer.guidance,
                ),
                ("command below zero", answer.command < -10_000),
            ];
            for (event, happened) in events {
                *seen.entry(event).or_insert(0) += u64::from(happened);
            }
            (last, counted) = (Some(s.mode), unit.guidance_counted());
            (red_for, amber_for) = (unit.red_lit_for(), unit.amber_lit_for());
            (voice_for, seen_frames) = (unit.voice_since(), unit.frames());
            command = answer.command;
        }
    }
    assert_eq!(refusals, (11..=21).collect());
    assert!(seen.values().all(|&times| times > 0), "{seen:?}");
    // so that nothing agrees only because all is dark, or nothing is cut
    let common = [
        "red",
        "amber",
        "voice",
        "guidance",
        "cut above",
        "cut below",
    ];
    let [red, amber, voice, guidance, above, below] = common.map(|event| seen[event]);
    println!(
        "of {answers} answers: {red} red, {amber} amber, {voice} with voice, {guidance} with guidance on; \
         {above} cut above, {below} cut below"
    );
    assert!(answers > 1_500_000 && amber > 150_000 && below > 150_000);
    assert!([red, voice, guidance, above]
        .iter()
        .all(|&times| times > 200_000));
    both.done();
    assert!(both.compared() > 6_000_000);
}

fn calm() -> Sample {
    sent(&gen::CALM)
}

#[test]
fn forged_states_are_refused_by_8_exactly_at_its_limits() {
    let (mut rng, mut compared) = (Rng::new(86), 0u64);
    let (mut passed, mut refused) = (0, 0);
    let bad = Sample {
        along: 20_001,
        ..calm()
    };
    for t in forged() {
        if t.passes {
            passed += 1;
            let mut state = t.state;
            step(&mut state, some_frames(&mut rng), calm());
        } else {
            refused += 1;
            assert_eq!(
                t.state.offer(calm()),
                (expected(&Err(8)), t.state),
                "{}",
                t.name
            );
        }
        // 8 comes before the sample's own numbers, and they before 21, which a first sample never meets
        let late = after(&t.state, 21, calm());
        let early = Sample {
            frame: late.frame,
            ..bad
        };
        let number = if t.passes { 11 } else { 8 };
        for bad in [bad, early] {
            let refused = (expected(&Err(number)), t.state);
            assert_eq!(t.state.offer(bad), refused, "{}", t.name);
        }
        let number = match t.passes {
            true if t.state.core.seen == 0 => 0,
            true => 21,
            false => 8,
        };
        assert_eq!(t.state.offer(late).0.refusal, number, "{}", t.name);
        compared += 6;
    }
    println!("compared {compared} answers and states of {passed} forged states that pass and {refused} that do not");
    assert!(passed > 1_000 && refused > 4_000);
}

/// A place passes exactly where it is on the ring.
#[test]
fn every_place() {
    let mut compared = 0u64;
    for place in 0..=u16::MAX {
        let mut t = State::fresh();
        t.core.place = place;
        let (answer, after) = t.offer(calm());
        if place < 200 {
            assert_eq!((answer.refusal, after.core.place), (0, (place + 199) % 200));
        } else {
            assert_eq!((answer, after), (expected(&Err(8)), t), "place {place}");
        }
        compared += 2;
    }
    println!("compared {compared} answers and states at every place");
}

/// A state that passes 8, however forged, is answered, and what it leaves passes again.
#[test]
fn what_passes_is_answered_and_passes_again() {
    let (mut rng, mut compared) = (Rng::new(87), 0u64);
    for held in [-LIMIT, LIMIT] {
        for n in [0, 1, 59, 60, 61, 72, 73, 74, 599, 600] {
            for command in [-30_000, 0, 14_990, 15_010, 27_000] {
                let core = Core {
                    along: -20_000,
                    mode: 1,
                    command,
                    seen: n,
                    red: n,
                    amber: n,
                    voice: n,
                    guidance: n,
                    ..State::fresh().core
                };
                let mut t = with_entries(
                    &State {
                        core,
                        ..State::fresh()
                    },
                    0,
                    &[held; 200],
                );
                for along in [20_000, -20_000, 20_000] {
                    let s = Sample {
                        along,
                        vertical: -10_000,
                        airspeed: 6_000,
                        climb: 10_000,
                        ..calm()
                    };
                    let answer = step(&mut t, some_frames(&mut rng), s);
                    assert!(answer.alert == 2 || held < 0 && answer.alert == 1);
                    let Core {
                        red,
                        amber,
                        voice,
                        guidance,
                        ..
                    } = t.core;
                    assert!(red <= 60 && amber <= 60 && voice <= 73 && guidance <= 600);
                    compared += 4;
                }
            }
        }
    }
    println!("compared {compared} answers and states of states at their limits");
}

/// A counter: 0, anywhere up to 600, or where something changes.
fn some_count(rng: &mut Rng) -> u16 {
    let any = rng.within(0, 600) as u16;
    let other = rng.pick(&[1, 2, 24, 25, 48, 49, 59, 60, 72, 73, 590, 600, any]);
    rng.pick(&[0, other, other])
}

/// Each counter at every value that passes 8, with every number of frames; the others, the command, the condition and the
/// sample are any.
#[test]
fn every_count_with_every_number_of_frames() {
    let (mut rng, mut compared) = (Rng::new(89), 0u64);
    let mut seen = BTreeMap::new();
    for n in 0..=600 {
        for (frames, (_, counter)) in
            (1..=MOST_FRAMES).flat_map(|frames| COUNTERS.map(|counter| (frames, counter)))
        {
            let [near, far] = [rng.within(13_400, 16_600), rng.within(-30_000, 27_000)];
            let mut core = Core {
                mode: rng.within(0, 1),
                command: rng.pick(&[-30_000, 0, 15_000, 27_000, near, near, far]),
                seen: some_count(&mut rng),
                red: some_count(&mut rng),
                amber: some_count(&mut rng),
                voice: some_count(&mut rng),
                guidance: some_count(&mut rng),
                frame: rng.draw() as u16,
                ..State::fresh().core
            };
            *counter(&mut core) = n;
            let state = State {
                core,
                ..State::fresh()
            };
            let mut state = with_entries(&state, 0, &[rng.pick(&[-LIMIT, 0, LIMIT]); 200]);
            let s = Sample {
                height: rng.pick(&[49, 50, 400, 1_000, 1_001]),
                mode: if rng.one_in(4) {
                    1 - core.mode
                } else {
                    core.mode
                },
                deselect: rng.one_in(6).into(),
                ..sent(&random_sample(&mut rng))
            };
            let answer = step(&mut state, frames, s);
            compared += 4;

            let left = state.core;
            let frames = if core.seen == 0 { 1 } else { frames };
            let silenced = core.seen > 0 && core.mode != s.mode;
            let comes_on = core.red == 0 && left.red > 0;
            let ends = core.guidance > 0 && left.guidance == 0;
            let stays = core.guidance > 0 && left.guidance > 0;
            let moved = i32::from(frames) * 75;
            let events = [
                (
                    "red comes to its 60th frame",
                    core.red < 60 && left.red == 60,
                ),
                ("red out", core.red > 0 && left.red == 0),
                (
                    "amber out",
                    core.amber > 0 && left.amber == 0 && left.red == 0,
                ),
                ("amber stays lit", core.amber > 0 && answer.alert == 1),
                ("voice starts", core.voice == 0 && left.voice == 1),
                (
                    "voice again with a mode change",
                    core.voice > 1 && left.voice == 1,
                ),
                (
                    "voice silenced",
                    (1..=72).contains(&core.voice) && silenced && left.voice == 0,
                ),
                (
                    "no voice at a coming-on",
                    comes_on && core.voice > 72 && answer.voice == 0,
                ),
                (
                    "first cycle goes on",
                    core.voice > 0 && left.voice > 1 && answer.voice == 1,
                ),
                ("second cycle", core.voice > 0 && answer.voice == 2),
                ("third cycle", core.voice > 0 && answer.voice == 3),
                (
                    "voice runs out",
                    (1..=72).contains(&core.voice) && left.voice == 73,
                ),
                (
                    "guidance starts, counted",
                    comes_on && core.guidance == 0 && left.guidance == 2,
                ),
                (
                    "guidance starts, not counted",
                    comes_on && core.guidance == 0 && left.guidance == 1,
                ),
                (
                    "guidance not started",
                    comes_on && core.guidance == 0 && left.guidance == 0,
                ),
                ("a coming-on changes nothing", comes_on && stays),
                ("deselected", ends && s.deselect == 1),
                (
                    "the count reaches 600",
                    ends && s.deselect == 0 && core.guidance - 1 + frames == 600,
                ),
                (
                    "the count goes past 600",
                    ends && s.deselect == 0 && core.guidance - 1 + frames > 600,
                ),
                (
                    "the count goes on",
                    stays && left.guidance == core.guidance + frames,
                ),
                (
                    "the count is broken",
                    stays && core.guidance > 1 && left.guidance == 1,
                ),
                (
                    "the command moves up",
                    stays && left.command == core.command + moved,
                ),
                (
                    "the command moves down",
                    stays && left.command == core.command - moved,
                ),
                (
                    "the command comes to 15,000",
                    stays && core.command != 15_000 && left.command == 15_000,
                ),
                (
                    "the command is cut",
                    stays && left.command == s.stall && s.stall < core.command - moved,
                ),
                (
                    "a command while off",
                    core.guidance == 0 && core.command != 0 && left.guidance == 0,
                ),
            ];
            for (event, happened) in events {
                *seen.entry(event).or_insert(0u64) += u64::from(happened);
            }
        }
    }
    println!("compared {compared} answers and states of forged counters: {seen:?}");
    assert!(seen.values().all(|&times| times > 100), "{seen:?}");
}
