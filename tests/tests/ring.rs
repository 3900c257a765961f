//! The state's ring: many turns of it, rings that a host has built or turned, and sums that are right by chance.

use std::collections::HashSet;
use windshear::{Core, Sample, State, Sums};
use windshear_tests::both::Both;
use windshear_tests::forged::{after, bases, random_entries, some_frames, step, LIMIT};
use windshear_tests::gen::{dropping, gusts, long_lists, numbered, with_refused, Rng, CALM, LONG};
use windshear_tests::library::{entries, expected, sent, state_of, summed, with_entries};
use windshear_tests::reference::{entry, Unit, WINDOWS};

/// A hundred turns of the ring or more: every answer and every state is that of the reference, which keeps a plain list.
#[test]
fn a_hundred_turns() {
    let both = Both::new();
    let mut alerts = HashSet::new();
    for (name, list) in long_lists() {
        let mut pair = both.fresh(&name);
        let mut refused = 0;
        for s in &list {
            match pair.offer(s) {
                Ok(answer) => drop(alerts.insert(answer.alert)),
                Err(_) => refused += 1,
            }
        }
        assert_eq!(pair.unit.accepted(), LONG as usize, "{name}");
        let dropped = pair.unit.frames() > LONG as u64;
        assert_eq!(dropped, name.ends_with("dropped"), "{name}");
        assert!(refused > 3_000, "{name}: {refused}");
    }
    assert_eq!(alerts, HashSet::from([0, 1, 2]));
    both.done();
    assert!(both.compared() > 350_000);
}

/// Entries at their limits: no sum overflows, and what is left passes again, for two turns of the ring.
#[test]
fn entries_at_their_limits() {
    let (mut rng, mut compared) = (Rng::new(88), 0u64);
    for held in [-LIMIT, LIMIT] {
        for place in [0, 1, 100, 199] {
            for alongs in [[20_000, -20_000], [20_000, 20_000], [-20_000, -20_000]] {
                let mut state = with_entries(&State::fresh(), place, &[held; 200]);
                assert_eq!(state.core.sums.s200, 200 * i64::from(held));
                let mut entered = 0;
                for i in 0..450 {
                    let s = Sample {
                        along: alongs[i % 2],
                        vertical: 10_000 * held.signum(),
                        airspeed: 6_000,
                        ..sent(&CALM)
                    };
                    // the first stands for one whatever its number
                    let frames = if i % 3 == 0 { 1 } else { some_frames(&mut rng) };
                    step(&mut state, frames, s);
                    entered += usize::from(frames);
                    compared += 4;
                }
                let turned = 200 - entered % 200;
                assert_eq!(usize::from(state.core.place), (place + turned) % 200);
            }
        }
    }
    println!("compared {compared} answers and states with entries at their limits");
}

/// The state with its ring turned to place 0, its sums as they are.
fn unturned(state: &State) -> State {
    State {
        held: entries(state).try_into().unwrap(),
        core: Core {
            place: 0,
            ..state.core
        },
    }
}

/// A ring turned to any place, its sums right, answers as the unturned one, sample after sample.
#[test]
fn turned_rings() {
    let mut rng = Rng::new(81);
    let gusty = gusts(&mut rng, 450);
    let mut compared = 0u64;
    for (name, base) in bases() {
        let first = base.core.frame.wrapping_add(1);
        let list = numbered(&gusty, first, |i| [1, 1, 2, 20][i % 4]);
        let list = with_refused(&mut rng, list);
        let mut states: Vec<_> = (0..200)
            .map(|place| with_entries(&base, place, &entries(&base)))
            .collect();
        for (i, s) in list.iter().map(sent).enumerate() {
            let answer = states[0].offer_lent(s);
            assert_ne!(answer.refusal, 8);
            let left = unturned(&states[0]);
            for (place, state) in states.iter_mut().enumerate().skip(1) {
                let found = state.offer_lent(s);
                assert_eq!(found, answer, "{name}: turned to {place}, answer {i}");
                assert_eq!(
                    unturned(state),
                    left,
                    "{name}: turned to {place}, state after {i}"
                );
                compared += 2;
            }
        }
    }
    println!("compared {compared} answers and states of turned rings");
    assert!(compared > 500_000);
}

/// The windows that an entry is in.
fn windows_of(age: usize) -> usize {
    WINDOWS.iter().filter(|w| age < w.0).count()
}

/// The sums say no more than they are: a ring whose entries have changed passes where no sum does, and is
/// then answered by the entries that it has.
#[test]
fn right_by_chance() {
    let mut rng = Rng::new(82);
    let (mut passed, mut compared) = (0, 0u64);
    for (_, base) in bases() {
        // a part of one entry given to another: the sums stay where both are in the same windows
        for older in 1..200 {
            for newer in 0..older {
                let mut list = entries(&base);
                let (from, to) = if rng.one_in(2) {
                    (newer, older)
                } else {
                    (older, newer)
                };
                list[from] -= 1;
                list[to] += 1;
                let mut state = with_entries(&base, base.core.place.into(), &list);
                state.core.sums = base.core.sums;
                let passes = windows_of(newer) == windows_of(older);
                let (answer, left) = state.offer(after(&state, 1, sent(&CALM)));
                assert_eq!(
                    answer.refusal,
                    if passes { 0 } else { 8 },
                    "{newer} {older}"
                );
                assert_eq!(left == state, !passes, "{newer} {older}");
                compared += 2;
                if passes {
                    step(&mut state, some_frames(&mut rng), sent(&CALM));
                    passed += 1;
                    compared += 4;
                }
            }
        }
    }
    for _ in 0..20 {
        // the entries shuffled among those in the same windows
        let base = with_entries(
            &State::fresh(),
            rng.within(0, 199) as usize,
            &random_entries(&mut rng),
        );
        let mut list = entries(&base);
        for older in 1..200 {
            let ages: Vec<_> = (0..=older)
                .filter(|&age| windows_of(age) == windows_of(older))
                .collect();
            list.swap(older, rng.pick(&ages));
        }
        let mut state = with_entries(&base, base.core.place.into(), &list);
        assert_eq!(state.core.sums, base.core.sums);
        assert_ne!(state.held, base.held);
        for s in gusts(&mut rng, 450) {
            step(
                &mut state,
                some_frames(&mut rng),
                Sample {
                    height: 400,
                    ..sent(&s)
                },
            );
            compared += 4;
        }
    }
    println!("compared {compared} answers and states of rings whose sums are right by chance");
    // 100 entries in all six windows, and five times 20 in the same of them
    assert_eq!(passed, 3 * (100 * 99 / 2 + 5 * 20 * 19 / 2));
}

/// A ring read from another place passes where each sum is its window's there too: where the entries
/// come again every `period`.
#[test]
fn read_from_another_place() {
    let mut rng = Rng::new(83);
    let mut compared = 0u64;
    for period in [1, 2, 4, 5, 8, 10, 20, 25, 40, 50, 100, 200] {
        let once: Vec<_> = (0..period).map(|_| rng.within(-LIMIT, LIMIT)).collect();
        let list: Vec<_> = once.iter().copied().cycle().take(200).collect();
        let base = with_entries(&State::fresh(), 57, &list);
        for place in 0..200 {
            let mut state = base;
            state.core.place = place;
            let right = summed(&entries(&state)) == base.core.sums;
            // a window is a whole number of twenties, so of any period that divides twenty
            let same = 20 % period == 0 || (usize::from(place) + 200 - 57).is_multiple_of(period);
            assert_eq!(right, same, "period {period}, place {place}");
            if right {
                step(&mut state, some_frames(&mut rng), sent(&CALM));
            } else {
                assert_eq!(state.offer(sent(&CALM)), (expected(&Err(8)), state));
            }
            compared += 2;
        }
    }
    println!("compared {compared} answers and states of rings read from another place");
}

/// A state whose ring and sums a host builds from the shears that it was answered, each cut (02, A1) and once for
/// each frame (02, A6), as the header says, the rest of the core taken over, is as good as the one that the samples left.
#[test]
fn built_by_the_host() {
    let mut rng = Rng::new(84);
    let mut compared = 0u64;
    for samples in [
        0, 1, 2, 99, 100, 101, 179, 180, 181, 199, 200, 201, 399, 400, 450, 1_000,
    ] {
        let mut unit = Unit::new();
        let mut state = State::fresh();
        let mut cut = Vec::new();
        let list = gusts(&mut rng, samples);
        for s in dropping(&mut rng, &list) {
            let answer = state.offer_lent(sent(&s));
            assert_eq!(answer, expected(&unit.offer(&s)));
            cut.resize(unit.frames() as usize, entry(answer.shear));
        }
        let newest_first = || cut.iter().rev().copied().take(200);
        for place in [0, 1, 57, 198, 199] {
            let mut built = State::fresh();
            built.core = state.core;
            for (i, entry) in newest_first().enumerate() {
                built.held[(place + i) % 200] = entry;
            }
            built.core.place = place as u16;
            built.core.sums = Sums::of(newest_first());
            let (mut unit, mut state) = (unit.clone(), state);
            let list = gusts(&mut rng, 230);
            let list = numbered(&list, state.core.frame.wrapping_add(1), |i| {
                i as u16 % 3 + 1
            });
            for s in with_refused(&mut rng, list) {
                let want = expected(&unit.offer(&s));
                assert_eq!(state.offer_lent(sent(&s)), want, "{samples} samples");
                assert_eq!(
                    built.offer_lent(sent(&s)),
                    want,
                    "{samples} samples, from {place}"
                );
                assert_eq!(
                    unturned(&built),
                    unturned(&state_of(&unit)),
                    "{samples} samples, from {place}"
                );
                compared += 3;
            }
        }
    }
    println!("compared {compared} answers and states of rings that a host has built");
}

/// The Rust crate's own reading of a ring, and its sums, for every place that a state can have.
#[test]
fn entries_and_sums_in_rust() {
    let mut rng = Rng::new(85);
    let mut compared = 0u64;
    let mut state = State {
        held: random_entries(&mut rng).try_into().unwrap(),
        ..State::fresh()
    };
    for place in 0..=u16::MAX {
        state.core.place = place;
        let mut on_ring = state;
        on_ring.core.place = place % 200;
        let want = entries(&on_ring);
        assert!(state.entries().eq(want.iter().copied()), "place {place}");
        assert_eq!(Sums::of(state.entries()), summed(&want), "place {place}");
        compared += 2;
    }
    // fewer entries are followed by zeros, and more are not read
    let list = random_entries(&mut rng);
    for n in 0..=200 {
        let mut want = vec![0; 200];
        want[..n].copy_from_slice(&list[..n]);
        assert_eq!(Sums::of(list[..n].iter().copied()), summed(&want));
        assert_eq!(
            Sums::of(list.iter().chain(&list[..n]).copied()),
            summed(&list)
        );
        compared += 2;
    }
    for entry in [i32::MIN, i32::MAX] {
        assert_eq!(Sums::of([entry; 200]), summed(&[entry; 200]));
        compared += 1;
    }
    println!("compared {compared} entries and sums as the Rust crate reads them");
}
