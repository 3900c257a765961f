//! `windshear::tidy`: what a spreadsheet changed comes back, and nothing else is changed.

use windshear::{tidy, Tidied};
use windshear_tests::csv::{self, NAMES};
use windshear_tests::gen::{any, Rng};
use windshear_tests::saved::{mended, saved};
use windshear_tests::texts::{restyle, table_of, text_of};

fn tidied(text: &[u8]) -> (Vec<u8>, usize, usize) {
    let mut out = Vec::new();
    let Tidied { ends, speeds } = tidy(text, &mut out).unwrap();
    (out, ends, speeds)
}

/// A line of ten fields, in which nothing is to be changed but the field given.
fn line_with(field: usize, content: &str) -> String {
    let mut fields = ["1.00", "2.00", "3.00", "4", "5", "6", "7", "8.00", "1", "0"];
    fields[field] = content;
    fields.join(",")
}

#[test]
fn speeds_get_their_two_decimals() {
    let cases = [
        ("20", "20.00"),
        ("140.1", "140.10"),
        ("140.10", "140.10"),
        ("0", "0.00"),
        ("-0", "-0.00"),
        ("-29.4", "-29.40"),
        ("+5", "+5.00"),
        ("007", "007.00"),
        ("\"20\"", "\"20.00\""),
        ("\"-29.4\"", "\"-29.40\""),
        ("\"29.40\"", "\"29.40\""),
    ];
    // a third decimal is not rounded; the rest is no number, or not as A3 writes one
    let left_alone = [
        "140.123", "140.005", "12.", ".5", ".", "", "-", "+", "--1", "+-1", "1-", "1.2.3", "1..2", " 1", "1 ", "1\r", "\r", "1e3", "1.2e3", "inf", "NaN",
        "x", "\"\"", "\"", "\"1", "1\"", "\"1\"\"\"", "\"1\"2", "\"1,2\"", "\"1.\"", "\" 1\"", "\"1\n\"", "\"1\r\n\"", "1;2", "'1", "1'000",
        "\u{661}", "\u{2212}1", "1\0", "0x1",
    ];
    let cases = cases.into_iter().chain(left_alone.map(|content| (content, content)));
    let mut n = 0;
    for (content, wanted) in cases {
        for field in 0..10 {
            let is_speed = [0, 1, 2, 7].contains(&field);
            let wanted = if is_speed { wanted } else { content };
            for (header, end) in [("names\r\n", "\r\n"), ("names\r\n", ""), ("", "\r\n")] {
                // the first line is the header, whatever it holds
                let wanted = if header.is_empty() { content } else { wanted };
                let text = format!("{header}{}{end}", line_with(field, content));
                let changed = usize::from(wanted != content);
                assert_eq!(tidied(text.as_bytes()), (format!("{header}{}{end}", line_with(field, wanted)).into(), 0, changed), "{text:?}");
                n += 1;
            }
        }
    }
    println!("compared {n} fields tidied");
}

#[test]
fn line_ends_become_crlf() {
    let good = line_with(0, "1.00");
    let cases = [
        (String::new(), String::new(), 0),
        ("\n".into(), "\r\n".into(), 1),
        ("\r\n".into(), "\r\n".into(), 0),
        ("\r".into(), "\r".into(), 0),
        ("\n\n\r\n\n".into(), "\r\n\r\n\r\n\r\n".into(), 3),
        ("\r\r\n".into(), "\r\r\n".into(), 0),
        ("\n\r".into(), "\r\n\r".into(), 1),
        ("a\rb\n".into(), "a\rb\r\n".into(), 1),
        // the last line gets no end
        ("names\nlast".into(), "names\r\nlast".into(), 1),
        (format!("names\r\n{good}\n{good}\r\n{good}"), format!("names\r\n{good}\r\n{good}\r\n{good}"), 1),
        // what is in quotes is no line end
        ("\"a\nb\"\n".into(), "\"a\nb\"\r\n".into(), 1),
        ("\"a\"\"\n\"\n".into(), "\"a\"\"\n\"\r\n".into(), 1),
        ("a,\"b\n,\",\n".into(), "a,\"b\n,\",\r\n".into(), 1),
        ("\"never closed\n\n".into(), "\"never closed\n\n".into(), 0),
        // a quote inside a field opens nothing
        ("a\"b\nc\n".into(), "a\"b\r\nc\r\n".into(), 2),
        (" \"b\nc\n".into(), " \"b\r\nc\r\n".into(), 2),
    ];
    for (text, wanted, ends) in &cases {
        assert_eq!(tidied(text.as_bytes()), (wanted.clone().into(), *ends, 0), "{text:?}");
    }
    println!("compared {} texts with their line ends", cases.len());
}

#[test]
fn a_line_of_another_number_of_fields_keeps_them() {
    let mut n = 0;
    for fields in (0..30).filter(|fields| *fields != 10) {
        let line = vec!["7"; fields].join(",");
        assert_eq!(tidied(format!("names\n{line}\n").as_bytes()), (format!("names\r\n{line}\r\n").into(), 2, 0));
        n += 1;
    }
    let ten = ["7"; 10].join(",");
    let wanted = "7.00,7.00,7.00,7,7,7,7,7.00,7,7";
    assert_eq!(tidied(format!("{ten}\n{ten}\n{ten}").as_bytes()), (format!("{ten}\r\n{wanted}\r\n{wanted}").into(), 2, 8));
    println!("compared {} lines by their fields", n + 1);
}

#[test]
fn what_a_spreadsheet_saved_comes_back() {
    let mut rng = Rng::new(1);
    let (mut n, mut changed) = (0, 0);
    for count in (0..400).chain([2_600]) {
        let text = csv::write(&any(&mut rng, count));
        let (saved, ends, speeds) = saved(&text);
        assert_eq!((ends, tidied(&saved)), (count as usize + 1, (text.clone(), ends, speeds)));
        // and a text that is as it should be stays
        assert_eq!(tidied(&text), (text, 0, 0));
        n += 2;
        changed += speeds;
    }
    assert!(changed > 10_000);
    println!("compared {n} texts saved and tidied, with {changed} speeds changed");
}

#[test]
fn a_text_that_is_accepted_stays() {
    let mut rng = Rng::new(2);
    for _ in 0..2_000 {
        let count = rng.within(0, 9);
        let mut table = table_of(&any(&mut rng, count));
        restyle(&mut rng, &mut table, 3);
        let text = text_of(&table);
        assert!(csv::read(&text).is_ok());
        assert_eq!(tidied(&text), (text, 0, 0));
    }
    println!("compared 2000 texts with signs, zeros and quotes");
}

#[test]
fn any_text_is_tidied_once() {
    let mut rng = Rng::new(3);
    let names = NAMES.join(",");
    let lines = ["1,1,1,1,1,1,1,1,1,1", "\n2.5,2,2,4,4,4,4,8.1,1,0\n", names.as_str()];
    let pieces = [&["\n", "\r\n", "\r", ",", ",", "\"", "1", "20", "-", "+", ".", "5", "0", " ", "x"][..], &lines].concat();
    let (mut plain, mut changed) = (0, 0);
    for i in 0..100_000 {
        let text: String = (0..rng.within(0, 40)).map(|_| rng.pick(&pieces)).collect();
        // half of the texts without quotes, which another reading can be held against
        let text = if i % 2 == 0 { text.replace('"', "") } else { text };
        let (out, ends, speeds) = tidied(text.as_bytes());
        assert_eq!(tidied(&out), (out.clone(), 0, 0), "{text:?}");
        if !text.contains('"') {
            let (wanted, wanted_ends, wanted_speeds) = mended(&text);
            assert_eq!((String::from_utf8(out).unwrap(), ends, speeds), (wanted, wanted_ends, wanted_speeds), "{text:?}");
            plain += 1;
        }
        changed += ends + speeds;
    }
    assert!(plain > 50_000 && changed > 100_000);
    println!("compared {} texts tidied twice, {plain} of them with another reading: {changed} changes", 100_000 + plain);
}
