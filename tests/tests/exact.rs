//! 02, A2: whether a float was exact hundredths or was rounded. Floats of every kind, records with each set of rounded floats, and
//! the listing's last column; a run's answers do not depend on it.

use windshear::{Hundredths, HUNDREDTHS_LIMIT};
use windshear_tests::both::Both;
use windshear_tests::files::*;
use windshear_tests::gen::*;
use windshear_tests::reference::{self, read_record, Record, Sample, RANGES};

/// What a float within the limit is converted to.
fn within(number: i32, exact: bool) -> Option<Hundredths> {
    Some(Hundredths {
        number,
        exact,
        cut: false,
    })
}

/// What a float beyond the limit is converted to, above it for sign 1, below it for -1.
fn beyond(sign: i32, exact: bool) -> Option<Hundredths> {
    Some(Hundredths {
        number: sign * 1_000_000,
        exact,
        cut: true,
    })
}

/// The calm sample with other speeds.
fn at_speeds(along: i32, vertical: i32, airspeed: i32) -> Sample {
    Sample {
        along,
        vertical,
        airspeed,
        ..CALM
    }
}

/// The reference's judgement by two other ways: an f64 holds 100 times every binary32, and the decimals of an exact one are all 0
/// after the second.
#[test]
fn the_references_judgement() {
    let mut rng = Rng::new(120);
    let (mut by_f64, mut by_decimals) = ([0u64; 2], [0u64; 2]);
    let patterns = float_patterns(&mut rng).step_by(3);
    for (i, bits) in patterns.enumerate() {
        let knots = f32::from_bits(bits);
        let exact = reference::exact(bits);
        assert_eq!(exact.is_some(), knots.is_finite(), "{bits:#010x}");
        assert_eq!(exact.is_some(), reference::hundredths(bits).is_some());
        let Some(exact) = exact else { continue };
        let whole = (100.0 * f64::from(knots)).fract() == 0.0;
        assert_eq!(exact, whole, "{bits:#010x}");
        by_f64[usize::from(exact)] += 1;
        if i % 20 == 0 {
            // the least subnormal has 149 decimals
            let text = format!("{knots:.149}");
            let (_, decimals) = text.split_once('.').unwrap();
            let zeros = decimals[2..].bytes().all(|digit| digit == b'0');
            assert_eq!(exact, zeros, "{text}");
            by_decimals[usize::from(exact)] += 1;
        }
    }
    let all = by_f64.iter().chain(&by_decimals);
    println!(
        "compared {} judgements of the reference, rounded and exact by f64 {by_f64:?}, by decimals {by_decimals:?}",
        all.clone().sum::<u64>()
    );
    assert!(all.min() > Some(&20_000));
}

/// Every sign and exponent with many mantissas. Below a quarter of a knot only 0 is exact, and from 2^21 knots on every float is a
/// multiple of a quarter; in between each exponent has exact ones and rounded ones.
#[test]
fn every_sign_and_exponent() {
    let (mut rng, both) = (Rng::new(121), Both::new());
    // by the sign and exponent field: not finite, rounded, exact
    let mut met = [[0u64; 3]; 512];
    for bits in float_patterns(&mut rng) {
        let kind = both
            .hundredths(bits)
            .map_or(0, |h| 1 + usize::from(h.exact));
        met[(bits >> 23) as usize][kind] += 1;
    }
    for (top, kinds) in met.into_iter().enumerate() {
        let kinds = kinds.map(|n| n > 0);
        let knots = f32::from_bits((top as u32) << 23).abs();
        let wanted = match top % 256 {
            255 => [true, false, false],
            0 => [false, true, true],
            _ if knots < 0.25 => [false, true, false],
            _ if knots < 2_097_152.0 => [false, true, true],
            _ => [false, false, true],
        };
        assert_eq!(kinds, wanted, "{top}");
    }
    let sum = |kind: usize| met.iter().map(|kinds| kinds[kind]).sum::<u64>();
    let [missing, rounded, exact] = [0, 1, 2].map(sum);
    println!("of the floats, {exact} are exact, {rounded} rounded and {missing} not finite");
    assert!(exact > 1_000_000 && rounded > 5_000_000);
    assert_eq!(missing, 2 * 8_072);
    both.done();
}

/// The hundredths from -600.00 to 600.00 knots, each with the float nearest to it and the two beside that one: only every 25th is a
/// float itself, and no neighbour is.
#[test]
fn neighbours_of_every_hundredth() {
    let both = Both::new();
    let (_, high) = RANGES[2];
    let (mut exact, mut rounded) = (0u64, 0u64);
    for hundredths in -high..=high {
        // divided once, so that it is the nearest
        let nearest = hundredths as f32 / 100.0;
        let is_exact = hundredths % 25 == 0;
        let found = both.hundredths(nearest.to_bits());
        assert_eq!(found, within(hundredths, is_exact), "{nearest}");
        for beside in [nearest.next_down(), nearest.next_up()] {
            let found = both.hundredths(beside.to_bits());
            assert_eq!(found, within(hundredths, false), "{beside:e}");
        }
        exact += u64::from(is_exact);
        rounded += 2 + u64::from(!is_exact);
    }
    println!("of the floats beside hundredths, {exact} are exact and {rounded} rounded");
    assert_eq!((exact, rounded), (4_801, 355_202));
    both.done();
}

/// Every multiple of a quarter of a knot within the three ranges: as a float, and in records of which every float is one.
#[test]
fn quarters_of_a_knot() {
    let both = Both::new();
    let quarters = |(low, high): (i32, i32)| (low / 25..=high / 25).map(|quarter| 25 * quarter);
    for hundredths in RANGES[..3].iter().copied().flat_map(quarters) {
        let knots = (hundredths / 25) as f32 / 4.0;
        assert_eq!(both.hundredths(knots.to_bits()), within(hundredths, true));
    }
    let winds = quarters(RANGES[0]).cycle().zip(quarters(RANGES[1]).cycle());
    let speeds = winds.zip(quarters(RANGES[2]));
    let list = speeds.map(|((along, vertical), airspeed)| at_speeds(along, vertical, airspeed));
    let file = file_of_samples(&list.collect::<Vec<_>>());
    let count = right_len(&file) / 10;
    assert_eq!(count, 2_161);
    for place in 0..count {
        assert!(both.read_record(&file, place).unwrap().exact, "{place}");
    }
    assert_eq!(words(&both.listing(&file)), vec!["exact"; count]);
    both.done();
}

/// Floats by name: ties are rounded though they end at a half, and what is beyond every range is judged by its exact value too.
#[test]
fn named_floats() {
    let both = Both::new();
    let named: [(f32, _); 24] = [
        (140.10, within(14_010, false)),
        (140.25, within(14_025, true)),
        (140.0, within(14_000, true)),
        (0.0, within(0, true)),
        (0.25, within(25, true)),
        (0.5, within(50, true)),
        (0.125, within(13, false)),
        (0.375, within(38, false)),
        (200.125, within(20_013, false)),
        (0.01, within(1, false)),
        (0.005, within(0, false)),
        (0.1, within(10, false)),
        (0.2, within(20, false)),
        (1.0 / 3.0, within(33, false)),
        (599.75, within(59_975, true)),
        (599.99, within(59_999, false)),
        (9_999.99, within(999_999, false)),
        (10_000.25, beyond(1, true)),
        (10_000.125, beyond(1, false)),
        (123_456.79, beyond(1, false)),
        (1_048_576.125, beyond(1, false)),
        (2_097_152.25, beyond(1, true)),
        (1e10, beyond(1, true)),
        (f32::MAX, beyond(1, true)),
    ];
    for (knots, wanted) in named {
        assert_eq!(both.hundredths(knots.to_bits()), wanted, "{knots}");
        let turned = wanted.map(|h| Hundredths {
            number: -h.number,
            ..h
        });
        assert_eq!(both.hundredths((-knots).to_bits()), turned, "-{knots}");
    }
    both.done();
}

/// Zero of either sign is exact; every subnormal is rounded to it, and so is what is above them up to half a hundredth.
#[test]
fn zero_and_subnormals() {
    let (mut rng, both) = (Rng::new(122), Both::new());
    let mut rounded = 0u64;
    for sign in [0, 1 << 31] {
        assert_eq!(both.hundredths(sign), within(0, true));
        for mantissa in mantissas(&mut rng, 200_000) {
            let zero = mantissa == 0;
            assert_eq!(both.hundredths(sign | mantissa), within(0, zero));
            rounded += u64::from(!zero);
        }
        let half = 0.005_f32.to_bits();
        for bits in (0x0080_0000..=half).step_by(10_007).chain([half]) {
            assert_eq!(both.hundredths(sign | bits), within(0, false));
        }
    }
    println!("{rounded} subnormals are rounded");
    assert!(rounded > 400_000);
    both.done();
}

/// The largest floats and all from 2^21 knots on are exact and cut. From the limit to there a float is exact where it is a multiple
/// of a quarter, by sixteenths.
#[test]
fn beyond_every_range() {
    let (mut rng, both) = (Rng::new(123), Both::new());
    let (mut exact, mut rounded) = (0u64, 0u64);
    let least = 2_097_152.0_f32.to_bits() >> 23;
    for sign in [1, -1] {
        let of = |knots: f32| both.hundredths((sign as f32 * knots).to_bits());
        for exponent in least..255 {
            for mantissa in mantissas(&mut rng, 1_000) {
                let knots = f32::from_bits(exponent << 23 | mantissa);
                assert_eq!(of(knots), beyond(sign, true), "{knots:e}");
                exact += 1;
            }
        }
        assert_eq!(of(f32::MAX), beyond(sign, true));
        for _ in 0..100_000 {
            // below 2^24, so that a float holds it
            let sixteenths = rng.within(160_001, (1 << 24) - 1);
            let knots = sixteenths as f32 / 16.0;
            let is_exact = sixteenths % 4 == 0;
            assert_eq!(of(knots), beyond(sign, is_exact), "{knots}");
            exact += u64::from(is_exact);
            rounded += u64::from(!is_exact);
        }
    }
    println!("of the floats beyond every range, {exact} are exact and {rounded} rounded");
    assert!(exact > 200_000 && rounded > 100_000);
    both.done();
}

/// 10,000.00 knots are the limit, and not cut; nor are the five floats above them, which are rounded down to it. A float there is a
/// 1,024th of a knot from the next, and every 256th a multiple of a quarter.
#[test]
fn around_the_limit() {
    assert_eq!(HUNDREDTHS_LIMIT, 1_000_000);
    let both = Both::new();
    for sign in [1, -1] {
        let limit = 10_000_f32;
        let (mut above, mut below) = (limit, limit);
        let of = |knots: f32| both.hundredths((sign as f32 * knots).to_bits());
        assert_eq!(of(limit), within(sign * 1_000_000, true));
        for steps in 1..=1_100 {
            (above, below) = (above.next_up(), below.next_down());
            let apart = f64::from(steps) / 1_024.0;
            assert_eq!(f64::from(above) - 10_000.0, apart);
            assert_eq!(10_000.0 - f64::from(below), apart);
            let exact = steps % 256 == 0;
            let wanted = match steps {
                1..=5 => within(sign * 1_000_000, exact),
                _ => beyond(sign, exact),
            };
            assert_eq!(of(above), wanted, "{above}");
            // a tie, at an odd eighth, goes away from zero
            let less = (100.0 * apart - 0.5).ceil() as i32;
            let wanted = within(sign * (1_000_000 - less), exact);
            assert_eq!(of(below), wanted, "{below}");
        }
    }
    both.done();
}

/// What is not finite is neither exact nor rounded.
#[test]
fn not_finite() {
    let (mut rng, both) = (Rng::new(124), Both::new());
    for sign in [0, 1 << 31] {
        let infinity = sign | f32::INFINITY.to_bits();
        for mantissa in mantissas(&mut rng, 100_000) {
            assert_eq!(both.hundredths(infinity | mantissa), None);
        }
        // the largest finite one is just below
        assert!(both.hundredths(infinity - 1).is_some_and(|h| h.exact));
    }
    both.done();
}

/// The sample with its speeds at multiples of a quarter of a knot, so that its record is exact.
fn at_quarters(s: &Sample) -> Sample {
    let quarter = |hundredths| hundredths / 25 * 25;
    Sample {
        along: quarter(s.along),
        vertical: quarter(s.vertical),
        airspeed: quarter(s.airspeed),
        ..*s
    }
}

/// Another float of the same hundredths: beside the nearest, or anywhere within half a hundredth of it.
fn moved(rng: &mut Rng, hundredths: i32) -> u32 {
    let nearest = hundredths as f32 / 100.0;
    let more = rng.pick(&[-1.0, 1.0]) * f64::from(rng.within(1, 49)) / 100.0;
    let farther = ((f64::from(hundredths) + more) / 100.0) as f32;
    let beside = [nearest.next_down(), nearest.next_up()];
    rng.pick(&[beside[0], beside[1], farther, farther])
        .to_bits()
}

/// The record of a sample at quarters, with the floats of a set moved: the along wind's is 1, the vertical wind's 2, the airspeed's 4.
fn with_moved(rng: &mut Rng, s: &Sample, set: u32) -> Record {
    let mut bytes = record_of(s, 0.0).bytes();
    for field in (0..3).filter(|field| set >> field & 1 == 1) {
        put(&mut bytes, field, moved(rng, s.fields()[field]));
    }
    read_record(&bytes)
}

/// The file of samples at quarters, each with the floats of its set moved.
fn moved_file(rng: &mut Rng, list: &[Sample], sets: &[u32]) -> Vec<u8> {
    let records = list
        .iter()
        .zip(sets)
        .map(|(s, &set)| with_moved(rng, s, set));
    file_of(&records.collect::<Vec<_>>())
}

/// A set for each of so many records, half of them empty, or none empty.
fn some_sets(rng: &mut Rng, n: usize, half_empty: bool) -> Vec<u32> {
    let mut one = || {
        if half_empty && rng.one_in(2) {
            0
        } else {
            rng.within(1, 7) as u32
        }
    };
    (0..n).map(|_| one()).collect()
}

/// The word for a record that is exact, or not.
fn word(exact: bool) -> &'static str {
    if exact {
        "exact"
    } else {
        "rounded"
    }
}

/// The last column of a listing's lines, but for its header and its total.
fn words(listing: &str) -> Vec<&str> {
    let lines = listing.lines().skip(1);
    let lines = lines.filter(|line| !line.starts_with("red "));
    lines.filter_map(|line| line.rsplit(' ').next()).collect()
}

/// A record is exact where all three floats are. Of one sample, a record for each set of rounded floats, none and each alone among
/// them, in a reading and in its line; and every end of the ranges, which a rounded float may lie beyond.
#[test]
fn each_set_of_rounded_floats() {
    let (mut rng, both) = (Rng::new(125), Both::new());
    let mut samples = vec![CALM];
    for along in [-20_000, 20_000] {
        for vertical in [-10_000, 10_000] {
            samples.extend([6_000, 60_000].map(|v| at_speeds(along, vertical, v)));
        }
    }
    samples.extend((0..300).map(|_| at_quarters(&random_sample(&mut rng))));
    let mut beyond_ends = 0u64;
    for s in &samples {
        let first = rng.within(0, 7) as u32;
        let sets: Vec<_> = (0..8).map(|k| (first + k) % 8).collect();
        let file = moved_file(&mut rng, &[*s; 8], &sets);
        for (place, set) in sets.iter().enumerate() {
            let read = both.read_record(&file, place).unwrap();
            let fields = (read.sample.fields(), read.exact);
            assert_eq!(fields, (s.fields(), *set == 0), "{set:03b}");
            let Record {
                along, vertical, ..
            } = read.record;
            let [along, vertical] = [along, vertical].map(|bits| f32::from_bits(bits).abs());
            beyond_ends += u64::from(along > 200.0 || vertical > 100.0);
        }
        let shown: Vec<_> = sets.iter().map(|set| word(*set == 0)).collect();
        assert_eq!(words(&both.listing(&file)), shown);
    }
    println!("{beyond_ends} rounded records have a wind beyond the end of its range");
    assert!(beyond_ends > 10);
    // all that become 0 are not alike
    let minus_zero = Record {
        along: 1 << 31,
        vertical: 1 << 31,
        ..record_of(&CALM, 0.0)
    };
    let subnormal = Record {
        vertical: 1,
        ..minus_zero
    };
    let text = both.listing(&file_of(&[minus_zero, subnormal]));
    assert_eq!(words(&text), ["exact", "rounded"]);
    both.done();
}

/// A refused record is neither: a reading gives its number, and a listing nothing but the refusal. The records beside it are what
/// they are.
#[test]
fn refused_records() {
    let (mut rng, both) = (Rng::new(126), Both::new());
    let bad = bad_field_values();
    for (field, set) in (0..10).flat_map(|field| (0..8).map(move |set| (field, set))) {
        for sets in [[0, set, 7], [7, set, 0]] {
            let mut file = moved_file(&mut rng, &[CALM; 3], &sets);
            spoil(&mut rng, &bad, place_mut(&mut file, 1), 1 << field);
            let number = 11 + field as u8;
            assert_eq!(both.read_record(&file, 1), Err(Some(number)));
            for place in [0, 2] {
                let read = both.read_record(&file, place).unwrap();
                assert_eq!(read.exact, sets[place] == 0);
            }
            assert_eq!(both.listing(&file), format!("refused {number} at 1\n"));
        }
    }
    both.done();
}

/// Files whose floats differ by less than half a hundredth: the answers are the same bytes, and the listings the same lines but for
/// the last column, which is as each record's floats are.
#[test]
fn answers_do_not_depend_on_it() {
    let (mut rng, both) = (Rng::new(127), Both::new());
    let (mut exact, mut rounded, mut lit) = (0, 0, 0);
    for k in 0..120 {
        let n = rng.within(1, 400);
        let list = match k % 4 {
            0 => gusts(&mut rng, n),
            1 => any(&mut rng, n),
            2 => turbulence(&mut rng, n),
            _ => calm_air(&mut rng, n),
        };
        let list: Vec<_> = list.iter().map(at_quarters).collect();
        let file = file_of_samples(&list);
        let answers = both.run(&file, right_len(&file));
        let text = both.listing(&file);
        assert_eq!(words(&text), vec!["exact"; list.len()]);
        for half_empty in [false, true] {
            let sets = some_sets(&mut rng, list.len(), half_empty);
            let file = moved_file(&mut rng, &list, &sets);
            assert_eq!(both.run(&file, right_len(&file)), answers);
            let moved = both.listing(&file);
            assert_eq!(moved.replace(" rounded\n", " exact\n"), text);
            let shown: Vec<_> = sets.iter().map(|set| word(*set == 0)).collect();
            assert_eq!(words(&moved), shown);
            exact += shown.iter().filter(|word| **word == "exact").count();
            rounded += shown.iter().filter(|word| **word == "rounded").count();
        }
        lit += answers.unwrap().chunks(10).filter(|a| a[0] != 0).count();
    }
    println!(
        "of the lines, {exact} are exact and {rounded} rounded; {lit} answers have a lamp lit"
    );
    assert!(exact > 8_000 && rounded > 25_000 && lit > 3_000);
    both.done();
}

/// Files of both kinds of records, damaged: each record's line says what its reading does.
#[test]
fn damaged_files() {
    let (mut rng, both) = (Rng::new(128), Both::new());
    let (mut exact, mut rounded, mut refused) = (0u64, 0u64, 0u64);
    for _ in 0..1_500 {
        let n = rng.within(0, 60);
        let list: Vec<_> = gusts(&mut rng, n).iter().map(at_quarters).collect();
        let sets = some_sets(&mut rng, list.len(), true);
        let mut file = moved_file(&mut rng, &list, &sets);
        damage(&mut rng, &mut file);
        let places = 0..right_len(&file) / 10;
        let read = places.map(|place| both.read_record(&file, place));
        let read: Vec<_> = read.collect();
        for read in read.iter().flatten() {
            exact += u64::from(read.exact);
            rounded += u64::from(!read.exact);
        }
        let text = both.listing(&file);
        if text.starts_with("refused ") {
            refused += 1;
        } else {
            let shown = read.iter().map(|read| word(read.unwrap().exact));
            assert_eq!(words(&text), shown.collect::<Vec<_>>());
        }
    }
    println!(
        "of the records, {exact} are exact and {rounded} rounded; {refused} files are refused"
    );
    assert!(exact > 8_000 && rounded > 8_000 && refused > 500);
    both.done();
}
