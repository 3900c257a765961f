//! Every worked figure of the scope paper, as requests A1, A2 and A6 of paper 02 changed it, held against the reference and the
//! library; quoted names are the scope paper's sections.

use windshear_tests::both::{Both, Pair};
use windshear_tests::files::file_of_samples;
use windshear_tests::gen::*;
use windshear_tests::library::converted;
use windshear_tests::reference::{self, read_record, Answer, Record, Sample, CUT, RANGES, WINDOWS};

/// The places of the answers with this alert.
fn with_alert(answers: &[Answer], alert: u8) -> Vec<usize> {
    let lit = |&i: &usize| answers[i].alert == alert;
    (0..answers.len()).filter(lit).collect()
}

/// The samples with this alert.
fn lit(both: &Both, list: &[Sample], alert: u8) -> Vec<usize> {
    with_alert(&both.play(list), alert)
}

/// The answers after the exposure that `met` begins with, which is dark and silent itself.
fn after_exposure(both: &Both, list: &[Sample]) -> Vec<Answer> {
    let mut answers = both.play(list);
    let after = answers.split_off(EXPOSURE as usize);
    let dark = |a: &Answer| (a.alert, a.voice, a.guidance) == (0, 0, false);
    assert!(answers.iter().all(dark));
    after
}

/// The samples with this alert, counted from the end of the exposure.
fn lit_after(both: &Both, list: &[Sample], alert: u8) -> Vec<usize> {
    with_alert(&after_exposure(both, list), alert)
}

fn span(from: usize, to: usize) -> Vec<usize> {
    (from..=to).collect()
}

/// "A sample", "Refusal numbers": both ends in, the first number that fits.
#[test]
fn fields_refused() {
    let both = Both::new();
    assert_eq!(both.refusal(&CALM), 0);
    for (i, (low, high)) in RANGES.into_iter().enumerate() {
        let number = |value| {
            let mut fields = CALM.fields();
            fields[i] = value;
            both.refusal(&Sample::from_fields(fields))
        };
        assert_eq!([low, high].map(number), [0; 2]);
        assert_eq!(
            [low - 1, high + 1, i32::MIN, i32::MAX].map(number),
            [11 + i as u8; 4]
        );
        let mut many = CALM.fields();
        many[i..].fill(i32::MAX);
        assert_eq!(both.refusal(&Sample::from_fields(many)), 11 + i as u8);
    }
    both.done();
}

/// "Shear": the table, and the formula against its physical constants.
#[test]
fn shear_table() {
    let both = Both::new();
    assert_eq!(both.shear(0, 0, 14_000), 0);
    assert_eq!(both.shear(0, -1_000, 14_000), 7_143);
    assert_eq!(both.shear(0, -3, 8_000), 38);
    assert_eq!(both.shear(0, 3, 8_000), -38);
    for airspeed in 6_000..=60_000 {
        assert_eq!(both.shear(2_000, 0, airspeed), 2_098_349);
        assert_eq!(both.shear(1_999, 0, airspeed), 2_097_300);
    }
    let per_step = 0.01 * 1_852.0 / 3_600.0 * 20.0 / 9.80665;
    assert!((per_step - 18_520.0 / 1_765_197.0_f64).abs() < 1e-15);
    both.done();
}

/// "Shear": C is from the last accepted sample, 0 at the first.
#[test]
fn change_of_along_wind() {
    let both = Both::new();
    let mut pair = both.fresh("changes");
    let mut offer = |along, mode| {
        pair.offer_next(&Sample {
            along,
            mode,
            ..CALM
        })
        .map(|a| a.shear)
    };
    assert_eq!(offer(7_000, 1), Ok(0));
    assert_eq!(offer(9_000, 1), Ok(2_098_349));
    assert_eq!(offer(0, 2), Err(19));
    assert_eq!(offer(9_000, 1), Ok(0));
    assert_eq!(offer(7_000, 1), Ok(-2_098_349));
    both.done();
}

/// "Slips": the whole fraction is rounded once, ties away from zero both ways.
#[test]
fn rounded_once() {
    let both = Both::new();
    // Apart, 29,396,825 and 263 would give 29,396,562.
    assert_eq!(both.shear(28_019, 53, 20_160), 29_396_563);
    assert_eq!(both.shear(-28_019, -53, 20_160), -29_396_563);
    for (change, vertical, airspeed) in [
        (1, 3, 8_000),
        (917, -2_001, 12_345),
        (40_000, -10_000, 6_000),
    ] {
        assert_eq!(
            both.shear(change, vertical, airspeed),
            -both.shear(-change, -vertical, airspeed)
        );
    }
    assert!(both.shear(40_000, -10_000, 6_000) <= 50_000_000);
    both.done();
}

/// The lengths of the windows met after a list, by their sums.
fn windows_met(both: &Both, list: &[Sample], sign: i64) -> Vec<usize> {
    let mut pair = both.fresh("windows");
    for s in list {
        pair.offer(s).unwrap();
    }
    pair.windows_met(sign)
}

/// The samples of a dip at the cut.
const DIP: i32 = 20;

/// "The six windows": each is met alone at its value and not with one less held; a dip before
/// the plateau keeps the longer ones out.
#[test]
fn windows_alone() {
    let both = Both::new();
    let (seconds, table) = (
        [10, 9, 8, 7, 6, 5],
        [0.1050, 0.1166, 0.1311, 0.1499, 0.1748, 0.2100],
    );
    for (k, (samples, value)) in WINDOWS.into_iter().enumerate() {
        assert_eq!(
            (samples, value),
            (20 * seconds[k], f64::round(table[k] * 100_000.0) as i64)
        );
        let after_dip = |held: i64, sign: i32| {
            let (vertical, airspeed) = plateaus(held as i32)[0];
            plateau(DIP, DIP, samples as i32 + 20, (sign * vertical, airspeed))
        };
        // So many samples of the plateau.
        let met_after = |held, n: usize, sign: i32| {
            windows_met(
                &both,
                &after_dip(held, sign)[..DIP as usize + n],
                sign.into(),
            )
        };
        for (sign, _) in WAYS {
            assert_eq!(met_after(value, samples, sign), [samples]);
            assert!(met_after(value, samples - 1, sign).is_empty());
            assert!(met_after(value - 1, samples, sign).is_empty());
        }
        // Counted from the dip, the lamp comes on at the window's last sample; or with the next window,
        // where that sums to its limit in spite of what it has of the dip.
        let first = |held, sign, alert| {
            let lit = lit(&both, &after_dip(held, sign), alert);
            lit.first().map(|at| at + 1 - DIP as usize)
        };
        let next = (k > 0).then(|| {
            let (longer, least) = WINDOWS[k - 1];
            let sum = |n| n as i64 * (value - 1) - (longer - n) as i64 * i64::from(CUT);
            (samples..longer)
                .find(|&n| sum(n) >= longer as i64 * least)
                .unwrap()
        });
        for (sign, alert) in WAYS {
            assert_eq!(first(value, sign, alert), Some(samples));
            assert_eq!(first(value - 1, sign, alert), next);
        }
    }
    both.done();
}

/// 02, A1: one step of 2,000 meets no window, though its held shear is shown and is no less than the 8 and 6 second
/// windows ask for; nor do 1,999 and the largest step.
#[test]
fn one_step() {
    let both = Both::new();
    for (sign, _) in WAYS {
        for (size, held) in [(2_000, 2_098_349), (1_999, 2_097_300), (40_000, 41_966_987)] {
            let steps = [(0, -sign * size / 2), (5, sign * size)];
            let mut pair = both.fresh("one step");
            for (i, s) in stepped(230, &steps, |_, _| ()).iter().enumerate() {
                let answer = pair.offer(s).unwrap();
                assert_eq!(answer.shear, if i == 5 { sign * held } else { 0 });
                assert_eq!(answer.alert, 0);
                assert!(pair.windows_met(sign.into()).is_empty());
            }
        }
    }
    assert_eq!((160 * 13_110, 120 * 17_480), (2_097_600, 2_097_600));
    both.done();
}

/// "The six windows": the test rows of 000.
#[test]
fn test_rows() {
    let both = Both::new();
    for (sign, alert) in WAYS {
        for (average, exposed, limits) in TEST_ROWS {
            let list = plateau(20, 0, exposed, (-sign * average / 10, 10_000));
            let alerts: Vec<u8> = both.play(&list).iter().map(|a| a.alert).collect();
            assert!(meets_row(&alerts, 20, alert, limits), "{average} {sign}");
        }
        // A constant shear at a table value alerts exactly when its window is full of it.
        for (samples, value) in WINDOWS {
            let (vertical, airspeed) = plateaus(value as i32)[0];
            let list = plateau(20, 0, samples as i32, (sign * vertical, airspeed));
            assert_eq!(lit(&both, &list, alert)[0], 20 + samples - 1);
        }
    }
    both.done();
}

/// "The six windows": the band has both ends in, and outside it the windows still fill.
#[test]
fn band() {
    let both = Both::new();
    for (sign, alert) in WAYS {
        for (height, on) in [(49, false), (50, true), (1_000, true), (1_001, false)] {
            let at_height = lit_after(&both, &met(sign, 3, |_, s| s.height = height), alert);
            assert_eq!(at_height, if on { vec![0, 1, 2] } else { vec![] });
        }
        let entering = series(260, |i, s| {
            (s.vertical, s.airspeed) = (-sign * 1_050, 10_000);
            s.height = if i < 220 { 1_500 } else { 1_000 };
        });
        assert_eq!(lit(&both, &entering, alert), span(220, 259));
    }
    both.done();
}

/// "The six windows": both conditions may hold at once; red then shows alone. By 02, A1, only the entries of a lent state
/// are large enough for it: the part of a longer window that is not in a shorter one has at most 100 entries, and would
/// have to sum to both limits.
#[test]
fn both_conditions() {
    let both = Both::new();
    let least = WINDOWS.map(|(samples, value)| samples as i64 * value);
    let least = least.into_iter().min().unwrap();
    assert!((200 - 100) * i64::from(CUT) < 2 * least);
    // What steps of -16,000 and, 130 samples later, 4,000 hold.
    let mut entries = [0; 200];
    (entries[0], entries[130]) = (4_196_698, -16_786_795);
    let mut pair = both.holding("both conditions", &entries);
    assert_eq!(pair.windows_met(1), [120, 100]);
    assert_eq!(pair.windows_met(-1), [200, 180, 160, 140]);
    let alerts = |pair: &mut Pair, n| -> Vec<u8> {
        let calm = [CALM].into_iter().cycle().take(n);
        calm.map(|s| pair.offer_next(&s).unwrap().alert).collect()
    };
    assert_eq!(alerts(&mut pair, 70), [2; 70]);
    assert!(pair.windows_met(-1).is_empty());
    // Without the younger entry amber shows, until the older one has left the last window.
    entries[0] = 0;
    let mut pair = both.holding("amber alone", &entries);
    assert_eq!(alerts(&mut pair, 70), [[1; 69].as_slice(), &[0]].concat());
    both.done();
}

/// "Lamps and voice": at least 60 samples, counted from the coming-on.
#[test]
fn lamp_hold() {
    let both = Both::new();
    for (sign, alert) in WAYS {
        let lit_with = |at: &[i32]| {
            lit_after(
                &both,
                &condition_at(sign, 200, |i| at.contains(&i), |_, _| ()),
                alert,
            )
        };
        assert_eq!(lit_with(&[10]), span(10, 69));
        assert_eq!(lit_with(&[10, 69]), span(10, 69));
        assert_eq!(lit_with(&[10, 70]), span(10, 70));
        assert_eq!(lit_with(&[10, 71]), [span(10, 69), span(71, 130)].concat());
    }
    both.done();
}

/// The samples of `turned` before its turn.
const TURN: i32 = 120;

/// Samples at the cut one way, then the other way. Counted from the turn, the first condition holds to 58
/// (of 200 samples, 120 less 59 are 61), the second from 80 on (of 100, 81 less 19 are 62).
fn turned(first: i32, in_band: impl Fn(i32) -> bool) -> Vec<Sample> {
    stretches(&[(first, TURN), (-first, 190)], |i, s| {
        s.height = if in_band(i - TURN) { 400 } else { 1_001 }
    })
}

/// "Lamps and voice": amber is dark while red is lit; after red it comes on only by its condition.
#[test]
fn amber_and_red() {
    let both = Both::new();
    let lamps = |first: i32, in_band: &dyn Fn(i32) -> bool| {
        let answers = both.play(&turned(first, in_band));
        let answers = &answers[TURN as usize..];
        (with_alert(answers, 1), with_alert(answers, 2))
    };
    let turns = |first, alert: u8, at: i32| {
        let (amber, red) = lamps(first, &|i| i == at);
        if alert == 1 {
            amber
        } else {
            red
        }
    };
    for (sign, alert) in WAYS {
        assert_eq!(turns(sign, alert, 58), span(58, 117));
        assert!(turns(sign, alert, 59).is_empty());
        assert!(turns(-sign, alert, 79).is_empty());
        assert_eq!(turns(-sign, alert, 80), span(80, 139));
    }
    assert_eq!(
        lamps(-1, &|i| i == 30 || i == 80),
        (span(30, 79), span(80, 139))
    );
    // Red at 50, then the amber condition wherever the height is in the band.
    let at = |places: &'static [i32]| lamps(1, &|i| places.contains(&i));
    assert_eq!(at(&[50, 95]), (vec![], span(50, 109)));
    assert_eq!(at(&[50, 95, 110]), (span(110, 169), span(50, 109)));
    assert_eq!(lamps(1, &|i| i >= 50), (span(110, 189), span(50, 109)));
    both.done();
}

fn voices(both: &Both, list: &[Sample]) -> Vec<u8> {
    let answers = after_exposure(both, list);
    answers.iter().map(|a| a.voice).collect()
}

/// Silence, then the three cycles, cut or filled with silence to a length.
fn cycles(before: usize, len: usize) -> Vec<u8> {
    let mut all = [vec![0; before], vec![1; 24], vec![2; 24], vec![3; 24]].concat();
    all.resize(len, 0);
    all
}

/// "Lamps and voice": three cycles of 24, even if red goes dark, once until a mode change.
#[test]
fn voice() {
    let both = Both::new();
    assert_eq!(
        voices(&both, &condition_at(1, 200, |i| i == 10, |_, _| ())),
        cycles(10, 200)
    );
    assert_eq!(
        voices(&both, &condition_at(1, 200, |i| i >= 10, |_, _| ())),
        cycles(10, 200)
    );
    assert_eq!(
        voices(
            &both,
            &condition_at(1, 200, |i| i == 10 || i == 120, |_, _| ())
        ),
        cycles(10, 200)
    );
    assert_eq!(
        voices(&both, &condition_at(-1, 200, |i| i >= 10, |_, _| ())),
        [0; 200]
    );
    // The first sample is no mode change, whatever its mode.
    for mode in [0, 1] {
        assert_eq!(
            voices(
                &both,
                &condition_at(1, 90, |i| i == 10, |_, s| s.mode = mode)
            ),
            cycles(10, 90)
        );
    }
    both.done();
}

/// "Lamps and voice": a mode change silences at once and frees for the next coming-on, that sample's included.
#[test]
fn voice_and_mode() {
    let both = Both::new();
    let changed = |at: i32, again: i32| {
        voices(
            &both,
            &condition_at(
                1,
                200,
                |i| i == 10 || i == again,
                |i, s| s.mode = (i >= at).into(),
            ),
        )
    };
    for at in 11..=81 {
        let cut = cycles(10, at as usize);
        // Red stays lit to 69 and does not come on anew by the change.
        assert_eq!(
            changed(at, 10),
            [cut.clone(), vec![0; 200 - at as usize]].concat()
        );
        // The next coming-on, at the sample of the change or later, gives it anew.
        let again = at.max(71);
        assert_eq!(
            changed(at, again),
            [
                cut.clone(),
                cycles((again - at) as usize, 200 - at as usize)
            ]
            .concat()
        );
    }
    assert_eq!(changed(10, 10), cycles(10, 200));
    assert_eq!(changed(9, 10), cycles(10, 200));
    // A coming-on just before the change stays silent, and the change then finds no coming-on.
    assert_eq!(changed(120, 119), cycles(10, 200));
    both.done();
}

/// Red from sample 0 after the exposure; the commands from there on, None while off.
fn commands(both: &Both, n: i32, edit: impl Fn(i32, &mut Sample)) -> Vec<Option<i32>> {
    commands_of(both, &met(1, n, edit))
}

fn commands_of(both: &Both, list: &[Sample]) -> Vec<Option<i32>> {
    let shown = |a: &Answer| {
        assert!(a.guidance || a.command == 0);
        a.guidance.then_some(a.command)
    };
    after_exposure(both, list).iter().map(shown).collect()
}

/// "Escape pitch": the worked figures.
#[test]
fn pitch_figures() {
    let both = Both::new();
    let from_5000 = commands(&both, 140, |_, _| ());
    assert_eq!((from_5000[0], from_5000[1]), (Some(5_000), Some(5_075)));
    assert_eq!(
        (from_5000[133], from_5000[134], from_5000[139]),
        (Some(14_975), Some(15_000), Some(15_000))
    );
    let from_30000 = commands(&both, 2, |_, s| (s.pitch, s.stall) = (30_000, 30_000));
    assert_eq!(from_30000, [Some(27_000), Some(26_925)]);
    let cut = commands(&both, 4, |i, s| {
        (s.pitch, s.stall) = (15_000, if i == 1 { 12_000 } else { 20_000 })
    });
    assert_eq!(cut, [15_000, 12_000, 12_075, 12_150].map(Some));
    // The cap is the smaller of the two, negative ones too, and is tested at every sample.
    let low = commands(&both, 3, |i, s| {
        s.stall = [4_000, -10_000, 30_000][i.max(0) as usize]
    });
    assert_eq!(low, [4_000, -10_000, -9_925].map(Some));
    let below = commands(&both, 2, |_, s| (s.pitch, s.stall) = (-30_000, -10_000));
    assert_eq!(below, [-30_000, -29_925].map(Some));
    let near = commands(&both, 2, |_, s| s.pitch = 15_074);
    assert_eq!(near, [15_074, 15_000].map(Some));
    both.done();
}

/// "Escape pitch": deselect beats a start and ends; only a coming-on starts.
#[test]
fn deselect() {
    let both = Both::new();
    let at = |offset| commands(&both, 100, move |i, s| s.deselect = (i == offset).into());
    assert!(at(0).iter().all(Option::is_none));
    assert_eq!(at(-1), at(1_000));
    assert_eq!(at(3)[..3], at(1_000)[..3]);
    assert!(at(3)[3..].iter().all(Option::is_none));
    let again = commands_of(
        &both,
        &condition_at(
            1,
            120,
            |i| i == 10 || i == 80,
            |i, s| s.deselect = (i == 20).into(),
        ),
    );
    assert_eq!(again.iter().filter(|c| c.is_some()).count(), 10 + 40);
    assert_eq!(
        (again[19], again[20], again[79], again[80]),
        (Some(5_675), None, None, Some(5_000))
    );
    both.done();
}

/// "Escape pitch": the 600th counting sample in a row, the starting one the first that can count.
#[test]
fn climb_away() {
    let both = Both::new();
    let shown = |edit: &dyn Fn(i32, &mut Sample)| {
        let climbing = commands(&both, 1_300, |i, s| {
            (s.climb, s.airspeed) = (1, 13_001);
            edit(i, s);
        });
        let len = climbing.iter().take_while(|c| c.is_some()).count();
        assert!(climbing[len..].iter().all(Option::is_none));
        len
    };
    // Off at the 600th already.
    assert_eq!(shown(&|_, _| ()), 599);
    assert_eq!(
        shown(&|i, s| if i < 0 {
            s.climb = 0
        }),
        599
    );
    assert_eq!(
        shown(&|i, s| if i == 0 {
            s.climb = 0
        }),
        600
    );
    assert_eq!(
        shown(&|i, s| if i == 598 {
            s.climb = 0
        }),
        599 + 599
    );
    assert_eq!(
        shown(&|i, s| if i == 598 {
            s.airspeed = 13_000
        }),
        599 + 599
    );
    assert_eq!(shown(&|_, s| s.airspeed = 13_000), 1_300);
    assert_eq!(shown(&|_, s| s.climb = 0), 1_300);
    both.done();
}

/// "Escape pitch": an end beats a coming-on; a coming-on while guidance runs changes nothing in it.
#[test]
fn coming_on_and_end() {
    let both = Both::new();
    let with = |again: i32| {
        commands_of(
            &both,
            &condition_at(
                1,
                1_400,
                |i| i == 10 || i == again,
                |i, s| {
                    s.climb = 1;
                    s.pitch = if i == 10 { 5_000 } else { 1_000 };
                },
            ),
        )
    };
    let alone = with(10);
    assert_eq!(alone.iter().position(Option::is_some), Some(10));
    assert_eq!(alone[10..].iter().position(Option::is_none), Some(599));
    assert_eq!(with(300), alone);
    assert_eq!(with(609), alone);
    let next = with(610);
    assert_eq!(
        (next[609], next[610], next[611]),
        (None, Some(1_000), Some(1_075))
    );
    assert_eq!(next[610..].iter().filter(|c| c.is_some()).count(), 599);
    both.done();
}

/// "Refusal numbers": a refused sample is as if never offered.
#[test]
fn refused_changes_nothing() {
    let both = Both::new();
    let mut pair = both.fresh("refused");
    for s in &met(1, 30, |_, _| ()) {
        let before = (format!("{:?}", pair.unit), pair.state);
        assert_eq!(
            pair.offer(&Sample {
                along: 20_000,
                mode: 0,
                deselect: 2,
                ..*s
            }),
            Err(20)
        );
        assert_eq!((format!("{:?}", pair.unit), pair.state), before);
        pair.offer(s).unwrap();
    }
    both.done();
}

/// The reference's accessors, which count without end; the library's counters stop, and each offer compares them there.
#[test]
fn accessors() {
    let both = Both::new();
    let mut pair = both.fresh("counted");
    let unit = &pair.unit;
    assert_eq!((unit.last(), unit.guidance_counted()), (None, None));
    assert_eq!(
        (
            unit.red_lit_for(),
            unit.amber_lit_for(),
            unit.voice_since(),
            unit.command()
        ),
        (0, 0, 0, 0)
    );
    assert_eq!(unit.last_entries(3), [0, 0, 0]);
    let list = met(1, 1_000, |i, s| {
        s.climb = (i >= 500).into();
        // a gust at the second sample
        s.along = if i > -EXPOSURE { 2_000 } else { 0 };
    });
    let mut shears = Vec::new();
    for (i, s) in list.iter().enumerate() {
        shears.push(pair.offer(s).unwrap().shear);
        let unit = &pair.unit;
        let lit = (i as u64 + 1).saturating_sub(EXPOSURE as u64);
        assert_eq!(
            (unit.red_lit_for(), unit.voice_since(), unit.amber_lit_for()),
            (lit, lit, 0)
        );
        assert_eq!(
            unit.guidance_counted(),
            (lit > 0).then_some(lit.saturating_sub(500))
        );
    }
    let unit = &pair.unit;
    assert_eq!((unit.last(), unit.frames()), (list.last(), 1_060));
    // The answers show what is held, and the windows have it cut.
    assert_eq!(shears[..3], [71_429, 2_098_349 + 71_429, 71_429]);
    let entries = unit.last_entries(list.len() + 1);
    assert_eq!(entries[list.len() - 3..], [CUT, CUT, CUT, 0]);
    pair.offer_next(&Sample { mode: 0, ..CALM }).unwrap();
    let unit = &pair.unit;
    assert_eq!((unit.voice_since(), unit.red_lit_for()), (0, 1_001));
    both.done();
}

/// "The run file": floats to hundredths.
#[test]
fn floats() {
    let both = Both::new();
    let of = |knots: f32| both.hundredths(knots.to_bits()).map(|h| h.number);
    assert_eq!((of(0.125), of(-0.125)), (Some(13), Some(-13)));
    assert_eq!(
        (of(-0.0), of(f32::from_bits(1)), of(-f32::from_bits(1))),
        (Some(0), Some(0), Some(0))
    );
    assert_eq!(
        (of(200.0), of(200.125), of(-200.125)),
        (Some(20_000), Some(20_013), Some(-20_013))
    );
    assert_eq!(
        (of(0.375), of(0.005), of(0.00499), of(1.005)),
        (Some(38), Some(0), Some(0), Some(100))
    );
    assert_eq!(of(f32::MIN_POSITIVE), Some(0));
    assert_eq!(
        (of(f32::NAN), of(f32::INFINITY), of(f32::NEG_INFINITY)),
        (None, None, None)
    );
    // Beyond the library's cut only the reference has them whole.
    for (knots, whole) in [
        (16_777_216.0, 1_677_721_600),
        (-(2.0_f32.powi(119)), -(100 << 119)),
        (f32::MAX, i128::MAX),
        (f32::MIN, -i128::MAX),
    ] {
        assert_eq!(reference::hundredths(knots.to_bits()), Some(whole));
        assert_eq!(
            both.hundredths(knots.to_bits()),
            Some(converted(whole, true))
        );
    }
    // Against exact arithmetic in f64, where 100 × the float has at most 31 bits.
    for bits in (0..0x4c00_0000_u32).step_by(9_973) {
        let exact = f64::from(f32::from_bits(bits)) * 100.0;
        let (nearest, whole) = (exact.round() as i128, exact.fract() == 0.0);
        for (bits, nearest) in [(bits, nearest), (bits | 1 << 31, -nearest)] {
            assert_eq!(reference::hundredths(bits), Some(nearest));
            assert_eq!(both.hundredths(bits), Some(converted(nearest, whole)));
        }
    }
    both.done();
}

/// "The listing": the records of its example.
fn example() -> Vec<Record> {
    let record = |(along, vertical): (f32, f32)| Record {
        along: along.to_bits(),
        vertical: vertical.to_bits(),
        airspeed: 140_f32.to_bits(),
        height: 400,
        pitch: 5_000,
        stall: 20_000,
        climb: -700,
        vs1: 10_000,
        mode: 1,
        deselect: 0,
        frame: 0,
    };
    [(0.0, 0.0), (20.0, 0.0), (20.0, -10.0)]
        .map(record)
        .to_vec()
}

fn file(both: &Both, records: &[Record]) -> Vec<u8> {
    let mut bytes = both
        .write_header(1, records.len() as u32, 8)
        .unwrap()
        .to_vec();
    for record in records {
        bytes.extend(both.write_record(1, record, 24).unwrap());
    }
    bytes
}

/// "The run file": the bytes of a header and a record, floats kept as given.
#[test]
fn written_bytes() {
    let both = Both::new();
    assert_eq!(
        both.write_header(1, 0x0a21, 8),
        Ok([b'W', b'S', b'R', 1, 0, 0, 0x21, 0x0a])
    );
    let record = Record {
        along: 0x8000_0000,
        vertical: 0xc120_0000,
        deselect: 1,
        ..example()[2]
    };
    let bytes = both.write_record(1, &record, 24).unwrap();
    let expected = [
        0, 0, 0, 0x80, 0, 0, 0x20, 0xc1, 0, 0, 0x0c, 0x43, // -0, -10 and 140 kt
        0x90, 0x01, 0x88, 0x13, 0x20, 0x4e, 0x44, 0xfd, 0x10,
        0x27, // 400, 5000, 20000, -700, 10000
        1, 1,
    ];
    assert_eq!(bytes, expected);
    let sample = Sample {
        vertical: -1_000,
        deselect: 1,
        ..CALM
    };
    // Only the reference gives a record's fields and its sample; a run of the one record is answered as the sample is.
    assert_eq!(read_record(&bytes), record);
    assert_eq!(record.sample(), Ok(sample));
    assert_eq!(both.play(&[sample])[0].shear, 7_143);
    assert_eq!(
        both.run(&file(&both, &[record]), 10),
        Ok(vec![0, 0, 0, 0, 0xe7, 0x1b, 0, 0, 0, 0])
    );
    both.done();
}

/// The file of `n` samples after an exposure, the last of them calm.
fn exposed(sign: i32, n: i32) -> Vec<u8> {
    let calm_end = |i, s: &mut Sample| {
        if i == n - 1 {
            s.vertical = 0;
        }
    };
    file_of_samples(&met(sign, n, calm_end))
}

/// "The run file": 10 bytes per record, the held shear uncut (02, A1).
#[test]
fn answer_bytes() {
    let both = Both::new();
    let expected = [
        [0, 0, 0, 0, 0, 0, 0, 0, 0, 0],
        [0, 0, 0, 0, 0xad, 0x04, 0x20, 0x00, 0, 0],
        [0, 0, 0, 0, 0xe7, 0x1b, 0x00, 0x00, 0, 0],
    ];
    assert_eq!(
        both.run(&file(&both, &example()), 30),
        Ok(expected.concat())
    );
    assert_eq!(both.run(&file(&both, &[]), 0), Ok(vec![]));
    // After an exposure the lamp is lit: by 71,429 either way, then at a calm sample.
    let expected = [
        [
            [2, 1, 0x88, 0x13, 0x05, 0x17, 0x01, 0x00, 1, 0],
            [2, 1, 0xd3, 0x13, 0x00, 0x00, 0x00, 0x00, 1, 0],
        ],
        [
            [1, 0, 0, 0, 0xfb, 0xe8, 0xfe, 0xff, 0, 0],
            [1, 0, 0, 0, 0, 0, 0, 0, 0, 0],
        ],
    ];
    for ((sign, _), lit) in WAYS.into_iter().zip(expected) {
        let count = EXPOSURE as usize + 2;
        let bytes = both.run(&exposed(sign, 2), 10 * count).unwrap();
        assert_eq!(bytes[10 * (count - 2)..], lit.concat());
    }
    both.done();
}

/// "Refusal numbers": 1 to 7 in order, each hiding the later ones.
#[test]
fn run_refusals() {
    let both = Both::new();
    let good = file(&both, &example());
    let mut bad = good.clone();
    bad.push(0);
    bad[..8].copy_from_slice(&[b'W', b's', b'R', 1, 1, 1, 0x29, 0x0a]);
    bad[8..12].fill(0xff);
    let mut refused = |mend: &[(usize, u8)]| {
        for &(at, byte) in mend {
            bad[at] = byte;
        }
        both.run(&bad, 31)
    };
    assert_eq!(refused(&[]), Err((2, 0)));
    assert_eq!(refused(&[(1, b'S')]), Err((3, 0)));
    assert_eq!(refused(&[(4, 0)]), Err((4, 0)));
    assert_eq!(refused(&[(5, 0)]), Err((5, 0)));
    assert_eq!(refused(&[(6, 0x28)]), Err((6, 0)));
    assert_eq!(refused(&[(6, 3), (7, 0)]), Err((6, 0)));
    bad.pop();
    assert_eq!(both.run(&bad, 31), Err((7, 0)));
    assert_eq!(both.run(&bad, 30), Err((11, 0)));
    for len in 0..8 {
        assert_eq!(both.run(&[b'x'; 8][..len], 1), Err((1, 0)));
    }
    assert_eq!(both.run(&good[..good.len() - 1], 30), Err((6, 0)));
    let most = vec![example()[0]; 2_600];
    assert_eq!(file(&both, &most).len(), 62_408);
    assert_eq!(
        both.run(&file(&both, &most), 26_000)
            .map(|bytes| bytes.len()),
        Ok(26_000)
    );
    both.done();
}

/// "Refusal numbers": the first bad record's place, and the first number that fits it.
#[test]
fn record_refusals() {
    let both = Both::new();
    let good = example()[0];
    let nan = f32::NAN.to_bits();
    let cases = [
        (
            Record {
                along: 200.125_f32.to_bits(),
                vertical: nan,
                ..good
            },
            11,
        ),
        (
            Record {
                along: f32::MAX.to_bits(),
                ..good
            },
            11,
        ),
        (
            Record {
                vertical: f32::INFINITY.to_bits(),
                mode: 2,
                ..good
            },
            12,
        ),
        (
            Record {
                airspeed: nan,
                height: 5_001,
                ..good
            },
            13,
        ),
        (
            Record {
                airspeed: 59.99_f32.to_bits(),
                ..good
            },
            13,
        ),
        (
            Record {
                height: -21,
                pitch: 30_001,
                ..good
            },
            14,
        ),
        (
            Record {
                pitch: -30_001,
                ..good
            },
            15,
        ),
        (
            Record {
                stall: -10_001,
                ..good
            },
            16,
        ),
        (
            Record {
                climb: 10_001,
                ..good
            },
            17,
        ),
        (
            Record {
                vs1: 65_535,
                ..good
            },
            18,
        ),
        (
            Record {
                mode: 2,
                deselect: 2,
                ..good
            },
            19,
        ),
        (
            Record {
                deselect: 255,
                ..good
            },
            20,
        ),
    ];
    let at_end = Record {
        along: 200_f32.to_bits(),
        ..good
    };
    assert!(both.write_record(1, &at_end, 24).is_ok());
    let deselect_bad = [[0; 23].as_slice(), &[9]].concat();
    for (record, number) in cases {
        assert_eq!(
            (
                both.write_record(1, &record, 24),
                both.write_record(1, &record, 23)
            ),
            (Err(number), Err(7))
        );
        let mut bytes = file(&both, &[good; 4]);
        // The record's own bytes at place 2, and a worse one after it.
        bytes[8 + 48..][..24].copy_from_slice(&record.bytes());
        bytes[8 + 72..].copy_from_slice(&deselect_bad);
        assert_eq!(both.run(&bytes, 40), Err((number, 2)));
        assert_eq!(both.listing(&bytes), format!("refused {number} at 2\n"));
    }
    both.done();
}

/// "Refusal numbers": writing a header tests 5, then 7, in version 1.
#[test]
fn header_refusals() {
    let both = Both::new();
    assert_eq!(
        (
            both.write_header(1, 2_601, 9),
            both.write_header(1, u32::MAX, 8)
        ),
        (Err(5), Err(5))
    );
    assert_eq!(
        (both.write_header(1, 2_600, 7), both.write_header(1, 0, 9)),
        (Err(7), Err(7))
    );
    assert!(both.write_header(1, 2_600, 8).is_ok());
    both.done();
}

/// "The listing": its example, a lamp that comes on, a refusal, an empty run, and input that is too long.
#[test]
fn listings() {
    let both = Both::new();
    let example_text = "sample shear alert voice command float\n0 0 none 0 off exact\n\
        1 2098349 none 0 off exact\n2 7143 none 0 off exact\nred 0 amber 0\n";
    assert_eq!(both.listing(&file(&both, &example())), example_text);
    let red = "59 71429 none 0 off exact\n60 71429 red 1 5000 exact\n61 0 red 1 5075 exact\n\
        red 1 amber 0\n";
    assert!(both.listing(&exposed(1, 2)).ends_with(red));
    let amber = "59 -71429 none 0 off exact\n60 -71429 amber 0 off exact\n\
        61 0 amber 0 off exact\nred 0 amber 1\n";
    assert!(both.listing(&exposed(-1, 2)).ends_with(amber));
    assert_eq!(
        both.listing(&file(&both, &[])),
        "sample shear alert voice command float\nred 0 amber 0\n"
    );
    assert_eq!(both.listing(b""), "refused 1 at 0\n");
    let mut long = file(&both, &vec![example()[0]; 2_600]);
    assert_eq!(both.listing(&long).lines().count(), 2_602);
    long.extend([0; 100]);
    assert_eq!(both.listing(&long), "refused 6 at 0\n");
    both.done();
}

/// "The listing": totals count comings-on, amber's after red as well.
#[test]
fn listing_totals() {
    let both = Both::new();
    let three = [(-1, 70), (1, 100), (-1, 100)];
    for (list, alerts, total) in [
        (
            stretches(&three, |_, _| ()),
            &[0, 1, 0, 2, 0, 1][..],
            "red 1 amber 2",
        ),
        // the one straight after the other
        (
            turned(-1, |i| i == 30 || i == 80),
            &[0, 1, 2, 0],
            "red 1 amber 1",
        ),
        (turned(1, |i| i >= 50), &[0, 2, 1], "red 1 amber 1"),
    ] {
        let mut shown: Vec<_> = both.play(&list).iter().map(|a| a.alert).collect();
        shown.dedup();
        assert_eq!(shown, alerts);
        let text = both.listing(&file_of_samples(&list));
        assert_eq!(text.lines().last(), Some(total));
    }
    both.done();
}
