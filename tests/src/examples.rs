//! The example run files, and the CSV texts of a repair shop.

use crate::csv;
use crate::files::{file_of_samples, record_of, samples_in};
use crate::gen::{numbered, plateau, plateaus, series, CALM};
use crate::reference::{Sample, VERSIONS, WINDOWS};

/// Where they are stored.
pub const FOLDER: &str = concat!(env!("CARGO_MANIFEST_DIR"), "/../examples");

/// `n` samples of an approach at 700 ft/min in a steady headwind, each edited.
fn approach(n: i32, edit: impl Fn(i32, &mut Sample)) -> Vec<Sample> {
    series(n, |i, s| {
        (s.along, s.height) = (-800, 700 - 7 * i / 12);
        edit(i, s);
    })
}

/// A calm approach: the winds move by a few hundredths.
fn calm() -> Vec<u8> {
    file_of_samples(&approach(40, |i, s| {
        s.along += [0, 3, 5, 2][i as usize % 4];
        s.vertical = [0, -20, 10][i as usize % 3];
    }))
}

/// The three records of 01, "The listing": one gust, which stays dark (02, A1).
fn gust() -> Vec<u8> {
    let winds = [(0, 0), (2_000, 0), (2_000, -1_000)];
    file_of_samples(&winds.map(|(along, vertical)| Sample {
        along,
        vertical,
        ..CALM
    }))
}

/// Between corners, each a sample and its value, along curves that are level at each; level before and after.
fn eased(corners: &[(i64, i64)], i: i32) -> i32 {
    let i = i64::from(i).clamp(corners[0].0, corners[corners.len() - 1].0);
    let part = corners.windows(2).find(|part| i <= part[1].0).unwrap();
    let ((from, low), (to, high)) = (part[0], part[1]);
    let (n, i) = (to - from, i - from);
    (low + (high - low) * i * i * (3 * n - 2 * i) / (n * n * n)) as i32
}

/// An approach through a microburst, half a minute: the headwind grows by 25 knots with an updraft, and
/// amber comes on; in the core it becomes a tailwind in a downdraft, and red comes on with the voice and
/// the escape pitch, which the pilot follows; behind it the lamp goes out, and the pilot cancels.
fn microburst() -> Vec<u8> {
    let mut height = 1_200 * 700;
    file_of_samples(&series(600, |i, s| {
        s.along = eased(
            &[
                (40, -500),
                (190, -3_000),
                (215, -3_000),
                (445, 1_800),
                (600, 900),
            ],
            i,
        );
        s.vertical = eased(
            &[
                (40, 0),
                (115, 400),
                (215, 0),
                (330, -900),
                (445, -300),
                (560, 0),
            ],
            i,
        );
        s.airspeed = 13_750 - s.along / 2;
        s.climb = eased(
            &[
                (40, -700),
                (115, -300),
                (215, -700),
                (330, -1_300),
                (420, 900),
            ],
            i,
        );
        s.pitch = eased(&[(40, 2_500), (190, 1_500), (330, 3_000), (490, 15_000)], i);
        s.stall = 17_000 - s.climb;
        s.deselect = (i >= 580).into();
        height += s.climb;
        s.height = height / 1_200;
    }))
}

/// Ten seconds at the value of the ten second window: red comes on at the last of them.
fn flat() -> Vec<u8> {
    let (samples, value) = WINDOWS[0];
    file_of_samples(&plateau(20, 0, samples as i32, plateaus(value as i32)[0]))
}

/// An approach with a bad record in the middle: its along wind becomes 20,013.
fn refused() -> Vec<u8> {
    let mut file = calm();
    let mut bad = record_of(&CALM, 0.0);
    bad.along = 200.125_f32.to_bits();
    file[8 + 24 * 20..][..24].copy_from_slice(&bad.bytes());
    file
}

/// 02, A6: forty seconds through a weaker microburst, whose host drops frames: three in each record where red comes on, 20 across the
/// number's turn, eight where its hold runs out, and 20 in each of the last.
fn dropped() -> Vec<u8> {
    // so many records, each so many frames after the one before it
    let parts = [
        (40, 1),
        (20, 3),
        (12, 1),
        (1, 20),
        (8, 3),
        (2, 1),
        (1, 8),
        (18, 1),
        (1, 17),
        (12, 2),
        (30, 20),
    ];
    let each = |(n, elapsed): (usize, i32)| std::iter::repeat_n(elapsed, n);
    let elapsed: Vec<_> = parts.into_iter().flat_map(each).collect();
    let (mut i, mut height) = (-1, 640 * 1_200);
    let list = series(elapsed.len() as i32, |record, s| {
        let elapsed = elapsed[record as usize];
        i += elapsed;
        s.along = eased(&[(30, -1_600), (110, 1_300), (190, -700), (300, -400)], i);
        s.vertical = eased(&[(20, 0), (70, -500), (130, 0)], i);
        s.airspeed = 14_200 - s.along / 2;
        s.climb = eased(&[(30, -700), (90, -1_200), (190, 900)], i);
        s.pitch = eased(&[(40, 2_500), (90, 4_000), (230, 14_000)], i);
        s.stall = 17_000 - s.climb;
        height += elapsed * s.climb;
        s.height = height / 1_200;
        s.frame = (65_412 + i) as u16;
    });
    samples_in(&VERSIONS[1], &list)
}

/// 02, A6: an approach whose host falls behind: record 23 comes 21 frames after the one before it.
fn behind() -> Vec<u8> {
    let list = approach(40, |_, _| ());
    let list = numbered(&list, 0, |i| if i == 23 { 21 } else { 1 });
    samples_in(&VERSIONS[1], &list)
}

/// A shop's approach of nine seconds: a headwind of 14 knots becomes a tailwind of 12 in sinking air, and red
/// comes on. Its airspeeds and Vs1 are no whole quarters of a knot, so that each record has a rounded float.
fn shop() -> Vec<Sample> {
    let mut height = 612 * 1_200;
    series(180, |i, s| {
        s.along = eased(&[(15, -1_437), (155, 1_262)], i);
        s.vertical = eased(&[(15, 4), (85, -643), (180, -118)], i);
        s.airspeed = 13_862 - s.along / 2;
        if s.airspeed % 25 == 0 {
            s.airspeed += 1;
        }
        s.pitch = eased(&[(40, 2_310), (110, 3_475), (180, 8_940)], i);
        s.stall = 14_870;
        s.climb = eased(&[(15, -712), (100, -1_164), (180, 386)], i);
        s.vs1 = 10_346;
        height += s.climb;
        s.height = height / 1_200;
    })
}

/// Every example: its name, and its file.
pub fn examples() -> [(&'static str, Vec<u8>); 8] {
    [
        ("behind", behind()),
        ("calm", calm()),
        ("dropped", dropped()),
        ("gust", gust()),
        ("microburst", microburst()),
        ("plateau", flat()),
        ("refused", refused()),
        ("shop", file_of_samples(&shop())),
    ]
}

/// Every CSV example: its name, and its text. The shop's is that of its run file. The refused one has the same samples, but
/// for the airspeed at place 57, which is ten times as large: 13 refuses it.
pub fn texts() -> [(&'static str, Vec<u8>); 2] {
    let mut list = shop();
    let text = csv::write(&list);
    list[57].airspeed *= 10;
    [("refused", csv::write(&list)), ("shop", text)]
}
