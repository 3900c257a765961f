//! The lent form beside the plain form: the same answers and states over long mixed lists, and a refused sample leaves the lent state's bytes.

use windshear::{Sample, State};
use windshear_tests::forged::forged;
use windshear_tests::gen::{all_lists, dropped_lists, long_lists, Rng, CALM};
use windshear_tests::library::{expected, in_order, sent};

/// All bytes of a state but for the six of padding at its end.
fn bytes(state: &State) -> Vec<u8> {
    let c = &state.core;
    let sums = in_order(&c.sums).map(i64::to_ne_bytes).concat();
    let wide = [c.along, c.mode, c.command].map(i32::to_ne_bytes).concat();
    let narrow = [
        c.seen, c.red, c.amber, c.voice, c.guidance, c.place, c.frame,
    ]
    .map(u16::to_ne_bytes)
    .concat();
    let bytes = [
        state.held.map(i32::to_ne_bytes).concat(),
        sums,
        wide,
        narrow,
    ]
    .concat();
    assert_eq!(bytes.len() + 6, size_of::<State>());
    bytes
}

#[test]
fn mixed_forms_answer_and_leave_the_same() {
    let mut rng = Rng::new(17);
    let mut compared = 0u64;
    let lists = all_lists().into_iter().chain(dropped_lists());
    for (name, list) in lists.chain(long_lists()) {
        let (mut plain, mut lent, mut mixed) = (State::fresh(), State::fresh(), State::fresh());
        for (i, s) in list.iter().enumerate() {
            let s = sent(s);
            let before = bytes(&lent);
            let (want, after) = plain.offer(s);
            plain = after;
            assert_eq!(lent.offer_lent(s), want, "{name}: lent answer {i}");
            if want.refusal != 0 {
                assert_eq!(
                    bytes(&lent),
                    before,
                    "{name}: a refused sample {i} changed the lent state"
                );
                assert_eq!(
                    bytes(&plain),
                    before,
                    "{name}: a refused sample {i} changed the state"
                );
            }
            let mixed_answer = if rng.one_in(2) {
                mixed.offer_lent(s)
            } else {
                let (answer, after) = mixed.offer(s);
                mixed = after;
                answer
            };
            assert_eq!(mixed_answer, want, "{name}: mixed answer {i}");
            assert_eq!((lent, mixed), (plain, plain), "{name}: states after {i}");
            compared += 4;
        }
    }
    println!("compared {compared} answers and states of the lent and the plain form");
}

/// A state that 8 refuses is left as it was, byte for byte, in both forms and whatever the sample.
#[test]
fn forged_states_are_left_alone() {
    let mut compared = 0u64;
    for t in forged().into_iter().filter(|t| !t.passes) {
        let before = bytes(&t.state);
        for s in [sent(&CALM), Sample::default()] {
            let (plain, after) = t.state.offer(s);
            let mut lent = t.state;
            assert_eq!(
                (plain, lent.offer_lent(s)),
                (expected(&Err(8)), expected(&Err(8))),
                "{}",
                t.name
            );
            assert_eq!(bytes(&after), before, "{}", t.name);
            assert_eq!(bytes(&lent), before, "{}: lent", t.name);
            compared += 4;
        }
    }
    println!("compared {compared} answers and states of forged states");
    assert!(compared > 30_000);
}
