//! A3's round trips through the library, beside the reference: from a text to a file and back, and from a
//! file to a text and back.

use windshear_tests::csv::{nearest_float, nearest_record, write};
use windshear_tests::exchange::Exchange;
use windshear_tests::files::*;
use windshear_tests::gen::*;
use windshear_tests::reference::{refusal, samples, Record, Sample};
use windshear_tests::texts::*;

/// The file's records, each with its speeds as the nearest floats.
fn nearest_file(list: &[Sample]) -> Vec<u8> {
    file_of(&list.iter().map(nearest_record).collect::<Vec<_>>())
}

/// The lists of the longest runs, of every kind, from many seeds.
fn long_lists() -> impl Iterator<Item = Vec<Sample>> {
    (0..24).flat_map(|seed| {
        let mut rng = Rng::new(330 + seed);
        let random = (0..2_600).map(|_| random_sample(&mut rng)).collect();
        [calm_air, turbulence, gusts, any]
            .map(|kind| kind(&mut rng, 2_600))
            .into_iter()
            .chain([random])
            .collect::<Vec<_>>()
    })
}

/// Exporting what was imported gives the same text where it is plain; the file is the one of the samples.
#[test]
fn plain_texts_come_back() {
    let mut exchange = Exchange::new();
    for list in long_lists() {
        let text = text_of(&table_of(&list));
        assert!(exchange.accepted(&text, true) == nearest_file(&list));
    }
    for (name, mut list) in all_lists() {
        list.retain(|s| refusal(s) == 0);
        let text = write(&list);
        let file = exchange.both.import(&text, 8 + 24 * list.len()).unwrap();
        assert!(file == nearest_file(&list), "{name}");
        assert!(
            exchange.both.export(&file, text.len()) == Ok(text),
            "{name}"
        );
    }
    exchange.done("plain texts and their files", &[0..=0]);
}

/// A text in another form gives the same file, and comes back plain: so it is the same text only where nothing
/// was quoted, and no number had a needless zero, a plus, or a minus before zero.
#[test]
fn other_forms_come_back_plain() {
    let mut exchange = Exchange::new();
    let mut rng = Rng::new(331);
    let mut kinds = [0; 2];
    for round in 0..8_000 {
        let most = if round % 400 == 0 { 2_600 } else { 20 };
        let n = rng.within(1, most);
        let list = any(&mut rng, n);
        let plain = table_of(&list);
        let mut table = plain.clone();
        let one_in = rng.pick(&[1, 2, 30, 600]);
        restyle(&mut rng, &mut table, one_in);
        let is_plain = table == plain;
        kinds[usize::from(is_plain)] += 1;
        let file = exchange.accepted(&text_of(&table), is_plain);
        assert!(file == nearest_file(&list));
        assert!(exchange.export(&file) == Ok(text_of(&plain)));
    }
    assert!(kinds.iter().all(|&n| n > 100), "{kinds:?}");
    exchange.done("texts in other forms and their files", &[0..=0]);
}

/// Whether each float is the one nearest its hundredths, and no zero is minus zero.
fn is_nearest(file: &[u8]) -> bool {
    nearest_file(&samples(file).unwrap()) == file
}

/// A file, its text, and the file of that: the same samples, and the same bytes exactly where every float is
/// the nearest and none is minus zero.
fn comes_back(exchange: &mut Exchange, file: &[u8]) -> bool {
    let text = exchange.export(file).unwrap();
    let again = exchange.accepted(&text, true);
    assert_eq!(samples(&again), samples(file));
    for place in 0..(file.len() - 8) / 24 {
        let [now, before] =
            [&again, file].map(|file| exchange.both.read_record(file, place).unwrap());
        assert_eq!(now.sample, before.sample);
    }
    assert_eq!(again == file, is_nearest(file));
    again == file
}

/// Importing what was exported: files of the nearest floats, and of floats anywhere within their hundredths.
#[test]
fn files_come_back() {
    let mut exchange = Exchange::new();
    let mut rng = Rng::new(332);
    for list in long_lists().step_by(3) {
        assert!(comes_back(&mut exchange, &nearest_file(&list)));
        let records: Vec<_> = list
            .iter()
            .map(|s| record_of(s, within_half(&mut rng)))
            .collect();
        assert!(!comes_back(&mut exchange, &file_of(&records)));
    }
    for _ in 0..2_000 {
        let n = rng.within(0, 30);
        let list = gusts(&mut rng, n);
        assert!(comes_back(&mut exchange, &nearest_file(&list)));
        let file = random_file(&mut rng, n);
        comes_back(&mut exchange, &file);
    }
    exchange.done("files and their texts", &[0..=0]);
}

/// One float of one record that is not the nearest: minus zero, the least subnormals, the floats beside the
/// nearest as long as they have its hundredths, and ties. The bytes change, the sample does not.
#[test]
fn one_other_float() {
    let mut exchange = Exchange::new();
    let mut rng = Rng::new(333);
    let calm = nearest_record(&CALM);
    let fields: [(fn(&mut Record) -> &mut u32, i32, i32); 3] = [
        (|r| &mut r.along, -20_000, 20_000),
        (|r| &mut r.vertical, -10_000, 10_000),
        (|r| &mut r.airspeed, 6_000, 60_000),
    ];
    let mut others = 0;
    for (float, low, high) in fields {
        let values = (0..800)
            .map(|_| rng.within(low, high))
            .chain([low, low + 1, high - 1, high]);
        let near_zero = (-130..=130).filter(|value| (low..=high).contains(value));
        for value in values.chain(near_zero).collect::<Vec<_>>() {
            let nearest = nearest_float(value);
            let away = rng.within(1, 1_000) as u32;
            let zeros = [1 << 31, 1, 1 << 31 | 1, 0x7f_ffff, 0x807f_ffff]
                .into_iter()
                .filter(|_| value == 0);
            let beside = [1, 2, away]
                .into_iter()
                .flat_map(|d| [nearest.wrapping_add(d), nearest.wrapping_sub(d)]);
            for bits in beside.chain(zeros) {
                let mut record = calm;
                *float(&mut record) = bits;
                let mut want = calm;
                *float(&mut want) = nearest;
                // the hundredths are others, or out of range
                if record.sample() != want.sample() {
                    continue;
                }
                let file = file_of(&[calm, record, calm]);
                assert!(!comes_back(&mut exchange, &file), "{bits:#010x}");
                assert!(comes_back(&mut exchange, &file_of(&[calm, want, calm])));
                others += 1;
            }
        }
    }
    assert!(others > 10_000, "{others}");
    // every tie: odd eighths of a knot go away from zero
    for eighths in (1..1_600).step_by(2) {
        for sign in [1, -1] {
            let bits = (sign as f32 * eighths as f32 / 8.0).to_bits();
            let away = sign * (25 * eighths + 1) / 2;
            let text = exchange
                .export(&file_of(&[Record {
                    along: bits,
                    ..calm
                }]))
                .unwrap();
            assert_eq!(
                text,
                write(&[Sample {
                    along: away,
                    ..CALM
                }])
            );
        }
    }
    exchange.done("files with one other float and their texts", &[0..=0]);
}
