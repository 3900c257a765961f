//! Lone samples over the long lists: the library in both its forms, the plain program and the
//! reference by turns.

use std::hint::black_box;
use windshear::{Sample, State};
use windshear_tests::bench::{medians, report};
use windshear_tests::gen::all_lists;
use windshear_tests::library::{expected, sent};
use windshear_tests::{plain, reference};

/// Every list is offered to a fresh unit of its own, sample by sample.
fn offer_all<S, U, A>(
    lists: &[Vec<S>],
    fresh: fn() -> U,
    offer: impl Fn(&mut U, &S) -> A,
    mut answered: impl FnMut(A),
) {
    for list in lists {
        let mut unit = fresh();
        for s in list {
            answered(offer(&mut unit, s));
        }
    }
}

/// The answers, one after the other.
fn answers<S, U, A>(lists: &[Vec<S>], fresh: fn() -> U, offer: impl Fn(&mut U, &S) -> A) -> Vec<A> {
    let mut answers = Vec::new();
    offer_all(lists, fresh, offer, |a| answers.push(a));
    answers
}

/// The same work, the answers not kept.
fn pass<S, U, A>(lists: &[Vec<S>], fresh: fn() -> U, offer: impl Fn(&mut U, &S) -> A) {
    offer_all(black_box(lists), fresh, offer, |a| {
        black_box(a);
    });
}

fn main() {
    let mut lists: Vec<_> = all_lists().into_iter().map(|(_, list)| list).collect();
    lists.retain(|list| list.len() > 1_000);
    let sent: Vec<Vec<_>> = lists
        .iter()
        .map(|list| list.iter().map(sent).collect())
        .collect();

    let plain_form = |state: &mut State, s: &Sample| {
        let (answer, after) = state.offer(*s);
        *state = after;
        answer
    };
    let lent_form = |state: &mut State, s: &Sample| state.offer_lent(*s);
    let by_plain = plain::Unit::offer;
    let by_reference = reference::Unit::offer;

    let want = answers(&lists, reference::Unit::new, by_reference);
    assert!(answers(&lists, plain::Unit::new, by_plain) == want);
    let want: Vec<_> = want.iter().map(expected).collect();
    assert!(answers(&sent, State::fresh, plain_form) == want);
    assert!(answers(&sent, State::fresh, lent_form) == want);

    let [plain_form, lent_form, plain, reference] = medians(
        21,
        [
            &mut || pass(&sent, State::fresh, plain_form),
            &mut || pass(&sent, State::fresh, lent_form),
            &mut || pass(&lists, plain::Unit::new, by_plain),
            &mut || pass(&lists, reference::Unit::new, by_reference),
        ],
    );
    for (form, library) in [("plain form", plain_form), ("lent form", lent_form)] {
        let what = format!("{} samples, {form}", want.len());
        report(&what, library, plain, reference);
    }
}
