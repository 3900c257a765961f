//! The lists are many, and the same ones every time.

use std::collections::HashSet;
use windshear_tests::gen::{all_lists, dropped_lists, long_lists};

#[test]
fn many_under_their_own_names() {
    let lists = all_lists();
    assert!(lists.len() >= 3_000);
    assert!(lists.iter().filter(|(_, list)| list.len() > 1_500).count() >= 48);
    assert_eq!(
        lists
            .iter()
            .map(|(name, _)| name)
            .collect::<HashSet<_>>()
            .len(),
        lists.len()
    );
    assert_eq!(lists, all_lists());
    assert_eq!(long_lists(), long_lists());
    let dropped = dropped_lists();
    assert!(dropped == dropped_lists() && dropped.len() > 1_000);
    println!("compared {} lists and names", lists.len() + dropped.len());
}
