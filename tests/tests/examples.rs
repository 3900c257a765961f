//! The stored examples are what their program makes, and each listing is the reference's and the one that the listing program prints.

use std::collections::BTreeSet;
use std::fs;
use windshear_tests::both::Both;
use windshear_tests::examples::{examples, texts, FOLDER};
use windshear_tests::exchange::Exchange;
use windshear_tests::files::right_len;
use windshear_tests::library::refused_file;

fn stored(name: &str) -> Vec<u8> {
    fs::read(format!("{FOLDER}/{name}")).unwrap()
}

#[test]
fn stored_as_made() {
    let both = Both::new();
    let mut names = BTreeSet::new();
    let mut is_stored = |name: String, made: &[u8]| {
        assert!(
            stored(&name) == made,
            "{name} is not what make_examples writes"
        );
        names.insert(name);
    };
    for (name, made) in examples() {
        is_stored(format!("{name}.txt"), both.listing(&made).as_bytes());
        is_stored(format!("{name}.wsr"), &made);
    }
    for (name, made) in texts() {
        is_stored(format!("{name}.csv"), &made);
    }
    let found = fs::read_dir(FOLDER).unwrap();
    let found = found.map(|entry| entry.unwrap().file_name().into_string().unwrap());
    assert_eq!(found.collect::<BTreeSet<_>>(), names);
    println!("compared {} stored examples and listings", names.len());
    both.done();
}

/// What each example shows: the alerts, the voice's cycles and whether guidance is on, each without its repeats.
#[test]
fn what_they_show() {
    let both = Both::new();
    for (name, file) in examples() {
        let bytes = both.run(&file, right_len(&file)).unwrap_or_default();
        let shown = |at: usize| {
            let mut shown: Vec<_> = bytes.chunks(10).map(|answer| answer[at]).collect();
            shown.dedup();
            shown
        };
        let [alerts, voice, guidance] = [0, 1, 8].map(shown);
        match name {
            "calm" | "gust" => assert_eq!([alerts, voice, guidance], [[0]; 3], "{name}"),
            "microburst" => {
                assert_eq!(alerts, [0, 1, 0, 2, 0]);
                assert_eq!(voice, [0, 1, 2, 3, 0]);
                assert_eq!(guidance, [0, 1, 0]);
            }
            "dropped" => {
                assert_eq!(alerts, [0, 2, 0]);
                assert_eq!(voice, [0, 1, 2, 3, 0]);
                assert_eq!(guidance, [0, 1, 0]);
            }
            "plateau" => {
                assert_eq!(alerts, [0, 2, 0]);
                assert_eq!(voice, [0, 1, 2, 3]);
                assert_eq!(guidance, [0, 1]);
            }
            "shop" => {
                assert_eq!(alerts, [0, 2]);
                assert_eq!(voice, [0, 1, 2, 3, 0]);
                assert_eq!(guidance, [0, 1]);
            }
            _ => assert!(bytes.is_empty(), "{name}"),
        }
    }
    both.done();
}

/// 02, A6, and README: of the run with dropped frames, those of the records where red comes on, where the number goes round and where
/// red goes dark; and where the host that falls behind is refused.
#[test]
fn frames_elapsed() {
    let both = Both::new();
    let file = stored("dropped.wsr");
    let bytes = both.run(&file, right_len(&file)).unwrap();
    let frame = |place| both.read_record(&file, place).unwrap().record.frame;
    let frames: Vec<_> = (0..bytes.len() / 10).map(frame).collect();
    let elapsed = |from: usize, to: usize| frames[to].wrapping_sub(frames[from]);
    assert_eq!([59, 72, 83].map(|at| elapsed(at - 1, at)), [3, 20, 8]);
    assert_eq!(frames[71..=72], [65_523, 7]);
    let most = (1..frames.len()).map(|at| elapsed(at - 1, at)).max();
    assert_eq!(most, Some(20));
    let red = (0..frames.len()).filter(|at| bytes[10 * at] == 2);
    assert!(red.eq(59..83));
    assert_eq!([82, 83].map(|at| elapsed(59, at)), [58, 66]);

    let behind = both.test_file(&stored("behind.wsr"));
    assert_eq!(behind, refused_file(21u16, 23));
    both.done();
}

/// How many lines of each listing are exact, and rounded: 01's three are all exact, and the others show both.
#[test]
fn floats_of_both_kinds() {
    let both = Both::new();
    for (name, file) in examples() {
        let text = both.listing(&file);
        let lines = ["exact", "rounded"].map(|word| text.matches(&format!(" {word}\n")).count());
        let wanted = match name {
            "calm" => [4, 36],
            "dropped" => [50, 95],
            "gust" => [3, 0],
            "microburst" => [54, 546],
            "plateau" => [90, 200],
            "shop" => [0, 180],
            _ => [0, 0],
        };
        assert_eq!(lines, wanted, "{name}");
    }
    both.done();
}

/// 02, A3: the shop's text is imported to its run file, which is exported to the same text; the other text is refused.
#[test]
fn texts_exchanged() {
    let mut exchange = Exchange::new();
    let file = exchange.accepted(&stored("shop.csv"), true);
    assert!(file == stored("shop.wsr"));
    assert_eq!(exchange.export(&file), Ok(stored("shop.csv")));
    exchange.refused(&stored("refused.csv"), 13, 57);
    for (name, file) in examples() {
        match exchange.export(&file) {
            Ok(text) => assert_eq!(exchange.import(&text), Ok(file), "{name}"),
            // 02, A6: a text holds version 1 only
            Err((3, 0)) => assert!(["behind", "dropped"].contains(&name)),
            Err(refusal) => assert_eq!((name, refusal), ("refused", (11, 20))),
        }
    }
    exchange.done("examples", &[0..=0, 3..=3, 11..=11, 13..=13]);
}

/// README's listings: the gust's whole, and of the microburst's and the one with dropped frames the lines where the alert, the voice
/// or guidance changes.
#[test]
fn readme_listings() {
    let readme = include_str!("../../README.md");
    let blocks = readme.split("```text\n").skip(1);
    let blocks = blocks.filter_map(|block| block.split("```").next());
    let shown: Vec<&str> = blocks.filter(|b| b.starts_with("sample ")).collect();
    let listing = |name: &str| String::from_utf8(stored(&format!("{name}.txt"))).unwrap();
    assert_eq!(shown.len(), 3);
    assert_eq!(shown[0], listing("gust"));

    let mut lines = shown[0].lines().count();
    for (shown, name) in shown[1..].iter().zip(["microburst", "dropped"]) {
        let changes = listing(name);
        let mut last = None;
        let changes = changes.lines().filter(|line| {
            let fields: Vec<_> = line.split(' ').collect();
            let now = (fields[2..4].to_vec(), fields.get(4) == Some(&"off"));
            last.replace(now.clone()) != Some(now)
        });
        let changes: Vec<_> = changes.collect();
        assert_eq!(shown.lines().collect::<Vec<_>>(), changes, "{name}");
        lines += changes.len();
    }
    println!("compared {lines} lines of README's listings");
}
