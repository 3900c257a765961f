//! Imports and exports of runs of 2,600 lines, the library and the reference by turns; then the refusals of long texts, which
//! only their ends decide, of 10 MB and of 100 MB.

use std::hint::black_box;
use windshear::Exchanged;
use windshear_tests::bench::{medians, three_files};
use windshear_tests::csv::{self, Refusal};
use windshear_tests::library::{exchanged, needed};
use windshear_tests::reference::samples;
use windshear_tests::texts::{quoted, table_of, text_of, with_zeros};

fn main() {
    for (name, file) in three_files() {
        let list = samples(&file).unwrap();
        measure(name, &csv::write(&list));
        if name == "gusty" {
            let mut table = table_of(&list);
            for (place, line) in table.iter_mut().enumerate() {
                for content in line {
                    *content = quoted(&with_zeros(content, usize::from(place > 0)));
                }
            }
            measure("gusty, quoted, with needless zeros", &text_of(&table));
            long_texts(&csv::write(&list));
        }
    }
}

/// The line of one comparison.
fn report(what: &str, library: f64, reference: f64) {
    println!(
        "{what}: library {library:.3} ms, reference {reference:.3} ms; library / reference {:.2}",
        library / reference
    );
}

/// A text of 2,600 lines and its run file. A caller asks for the length, makes the buffer and has it written; the reference
/// needs one call for that.
fn measure(name: &str, text: &[u8]) {
    let file = csv::import(text, 8 + 24 * 2_600).unwrap();
    let plain = csv::write(&samples(&file).unwrap());
    let (mut lent_file, mut lent_text) = (vec![0; file.len()], vec![0; plain.len()]);
    assert_eq!(windshear::import_length(text), needed(Ok(file.len())));
    assert_eq!(
        windshear::import(text, &mut lent_file),
        Exchanged::default()
    );
    assert_eq!(windshear::export_length(&file), needed(Ok(plain.len())));
    assert_eq!(
        windshear::export(&file, &mut lent_text),
        Exchanged::default()
    );
    assert!(lent_file == file && lent_text == plain);

    let mut import = || {
        black_box(windshear::import(black_box(text), &mut lent_file));
    };
    let mut import_length = || {
        black_box(windshear::import_length(black_box(text)));
    };
    let mut imported = || {
        let mut file = vec![0; windshear::import_length(black_box(text)).length];
        black_box(windshear::import(text, &mut file));
        black_box(file);
    };
    let mut by_reference = || {
        black_box(csv::import(black_box(text), file.len())).unwrap();
    };
    let mut length_by_reference = || {
        black_box(csv::import_length(black_box(text))).unwrap();
    };
    let [import, import_length, imported, by_reference, length_by_reference] = medians(
        201,
        [
            &mut import,
            &mut import_length,
            &mut imported,
            &mut by_reference,
            &mut length_by_reference,
        ],
    );
    let of = format!("of 2,600 lines, {name}, {} bytes", text.len());
    report(&format!("import {of}"), import, by_reference);
    report(
        &format!("import's length {of}"),
        import_length,
        length_by_reference,
    );
    report(
        &format!("length, buffer and import {of}"),
        imported,
        by_reference,
    );

    let mut export = || {
        black_box(windshear::export(black_box(&file), &mut lent_text));
    };
    let mut export_length = || {
        black_box(windshear::export_length(black_box(&file)));
    };
    let mut exported = || {
        let mut text = vec![0; windshear::export_length(black_box(&file)).length];
        black_box(windshear::export(&file, &mut text));
        black_box(text);
    };
    let mut by_reference = || {
        black_box(csv::export(black_box(&file), plain.len())).unwrap();
    };
    let mut length_by_reference = || {
        black_box(csv::export_length(black_box(&file))).unwrap();
    };
    let [export, export_length, exported, by_reference, length_by_reference] = medians(
        201,
        [
            &mut export,
            &mut export_length,
            &mut exported,
            &mut by_reference,
            &mut length_by_reference,
        ],
    );
    let of = format!("of 2,600 records, {name}, {} bytes of text", plain.len());
    report(&format!("export {of}"), export, by_reference);
    report(
        &format!("export's length {of}"),
        export_length,
        length_by_reference,
    );
    report(
        &format!("length, buffer and export {of}"),
        exported,
        by_reference,
    );
}

/// The text of a run again and again, so that 5 refuses it, with a last line that 24 refuses, and a text with one number of
/// so many digits: each of about 10 MB, and ten times that.
fn long_texts(text: &[u8]) {
    let header = text.iter().position(|&byte| byte == b'\n').unwrap() + 1;
    let (header, lines) = text.split_at(header);
    let many = |bytes: usize| [header, &lines.repeat(bytes / lines.len())].concat();
    let malformed = |bytes: usize| [&*many(bytes), b"0.00\r\n"].concat();
    let digits = |bytes: usize| {
        let digits = "7".repeat(bytes);
        [
            header,
            digits.as_bytes(),
            b".00,0.00,140.00,400,0,0,0,100.00,1,0\r\n",
        ]
        .concat()
    };
    let kinds: [(&str, &dyn Fn(usize) -> Vec<u8>, Refusal); 3] = [
        ("many lines", &many, (5, 0)),
        ("many lines, the last one malformed", &malformed, (24, 0)),
        ("one number of many digits", &digits, (11, 0)),
    ];
    for (name, kind, refusal) in kinds {
        let [short, long] = [10_000_000, 100_000_000].map(|bytes| {
            let text = kind(bytes);
            assert_eq!(csv::read(&text), Err(refusal));
            assert_eq!(windshear::import_length(&text), needed(Err(refusal)));
            assert_eq!(windshear::import(&text, &mut [0; 8]), exchanged(refusal));
            let mut library = || {
                black_box(windshear::import(black_box(&text), &mut [0; 8]));
            };
            let mut reference = || {
                black_box(csv::import(black_box(&text), 8)).unwrap_err();
            };
            let [library, reference] = medians(5, [&mut library, &mut reference]);
            println!(
                "{name}, {} bytes, refused by {}: library {:.3} s, reference {:.3} s; library / reference {:.2}",
                text.len(),
                refusal.0,
                library / 1e3,
                reference / 1e3,
                library / reference
            );
            library
        });
        println!("{name}: library, 100 MB / 10 MB {:.2}", long / short);
    }
}
