//! 02, A5: the rounding step, for every i64 over every u64. Its answers against the reference and against the words of 01, the two
//! laws that A5 asks for, and what these laws do not say.

use std::cmp::Ordering;
use std::collections::BTreeSet;
use windshear_tests::gen::Rng;
use windshear_tests::reference::nearest;

/// Named so that cargo links the library anew where it alone was built anew.
const _: &[u8] = include_bytes!("../../target/staticlib/libpanel.a");

#[link(name = "panel", kind = "static")]
extern "C" {
    fn windshear_round(num: i64, den: u64) -> i64;
}

/// A whole number over a divisor.
type Fraction = (i64, u64);

/// The rounding step under test.
fn round((num, den): Fraction) -> i128 {
    // SAFETY: it takes every number over every divisor, and is lent no memory.
    unsafe { windshear_round(num, den) }.into()
}

/// The kinds of fractions that are counted.
const KINDS: [&str; 7] = [
    "whole",
    "ties",
    "rounded away",
    "rounded toward 0",
    "just beyond a tie",
    "just short of a tie",
    "lost to 0",
];

/// Of which kinds a fraction is. Just beside a tie its numerator is one from it, or a half where the divisor is odd.
fn kinds((num, den): Fraction) -> [bool; 7] {
    let (size, den) = (i128::from(num).abs(), i128::from(den));
    let rest = size % den;
    let beyond = 2 * rest - den;
    let (away, toward) = (beyond > 0, beyond < 0 && rest > 0);
    [
        rest == 0,
        beyond == 0,
        away,
        toward,
        away && beyond <= 2,
        toward && beyond >= -2,
        toward && size < den,
    ]
}

/// How often something was compared, and of which kinds the fractions were, positive and negative.
#[derive(Default)]
struct Compared {
    times: u64,
    met: [[u64; 2]; 7],
}

impl Compared {
    /// What is said of these fractions is so.
    fn so(&mut self, said: bool, of: &[Fraction]) {
        let answers = || of.iter().map(|&fraction| round(fraction));
        assert!(said, "{of:?} give {:?}", answers().collect::<Vec<_>>());
        self.times += 1;
        for &(num, den) in of.iter().filter(|(_, den)| *den > 0) {
            for (met, is) in self.met.iter_mut().zip(kinds((num, den))) {
                met[usize::from(num < 0)] += u64::from(is);
            }
        }
    }

    /// Tells what was compared. Every kind was met so often or more, with either sign.
    fn done(self, what: &str, least: u64) {
        let met = KINDS.iter().zip(self.met).filter(|(_, met)| *met != [0, 0]);
        let met =
            met.map(|(kind, [positive, negative])| format!(", {kind} +{positive} -{negative}"));
        println!("compared {} {what}{}", self.times, met.collect::<String>());
        assert!(self.met.as_flattened().iter().min() >= Some(&least));
    }
}

/// Numerators and divisors at which something may turn: 1, 3 and 5 times every power of two, and up to two more or less.
fn edges() -> (BTreeSet<i64>, BTreeSet<u64>) {
    let powers = (0..=64).flat_map(|k| [1_i128, 3, 5].map(|odd| odd << k));
    let sizes: Vec<_> = powers.flat_map(|power| power - 2..=power + 2).collect();
    let signed = sizes.iter().flat_map(|size| [*size, -size]);
    let nums = signed.filter_map(|num| num.try_into().ok());
    let dens = sizes.iter().filter_map(|&den| den.try_into().ok());
    (nums.collect(), dens.collect())
}

/// Every edge over every edge but 0.
fn edge_fractions() -> Vec<Fraction> {
    let (nums, dens) = edges();
    let over = |den: u64| nums.iter().map(move |&num| (num, den));
    let dens = dens.iter().copied().filter(|den| *den > 0);
    dens.flat_map(over).collect()
}

/// Every small fraction: its numerator up to so much either way, its divisor up to so much.
fn small_fractions(num: i64, den: u64) -> Vec<Fraction> {
    let over = |den| (-num..=num).map(move |num| (num, den));
    (1..=den).flat_map(over).collect()
}

/// A number of so many bits or fewer, for every width from 0 to 64 alike.
fn any_width(rng: &mut Rng) -> u64 {
    let dropped = rng.draw() as u32 % 65;
    rng.draw().checked_shr(dropped).unwrap_or(0)
}

/// A third of the fractions are any two numbers, an eighth of them with the least i64. Of the others the numerator is a multiple of
/// the divisor or midway between two, or one beside these; the largest such are among them.
fn random_fraction(rng: &mut Rng) -> Fraction {
    let den = any_width(rng).max(1);
    let sign = rng.pick(&[1_i64, -1]);
    if rng.one_in(3) {
        let least = rng.one_in(8);
        let num = if least {
            i64::MIN
        } else {
            any_width(rng) as i64
        };
        return (sign.wrapping_mul(num), den);
    }
    let most = (1 << 63) / den;
    loop {
        let multiple = any_width(rng) % (most + 1);
        let multiple = rng.pick(&[multiple, multiple, most]);
        let within = rng.pick(&[0, den / 2]);
        let size = i128::from(multiple) * i128::from(den) + i128::from(within);
        let beside = rng.pick(&[-1, 0, 0, 1]);
        if let Ok(num) = (i128::from(sign) * (size + beside)).try_into() {
            return (num, den);
        }
    }
}

/// So many random fractions.
fn random_fractions(seed: u64, n: usize) -> impl Iterator<Item = Fraction> {
    let mut rng = Rng::new(seed);
    (0..n).map(move |_| random_fraction(&mut rng))
}

/// Every edge over every edge but 0 is rounded as the reference does it.
#[test]
fn every_edge_over_every_edge() {
    let (nums, dens) = edges();
    let ends = [i64::MIN, i64::MIN + 1, i64::MAX - 1, i64::MAX];
    assert!((-7..=7).chain(ends).all(|num| nums.contains(&num)));
    let high = [1 << 31, 1 << 32, 1 << 62, 1 << 63].map(|den| den - 1..=den + 1);
    let ends = (0..=7).chain([u64::MAX - 1, u64::MAX]);
    assert!(ends
        .chain(high.into_iter().flatten())
        .all(|den| dens.contains(&den)));
    let mut compared = Compared::default();
    for (num, den) in edge_fractions() {
        let wanted = nearest(num.into(), den.into());
        compared.so(round((num, den)) == wanted, &[(num, den)]);
    }
    compared.done("answers to edges over edges with the reference", 500);
}

/// Over 0 there is no fraction, and the answer is 0.
#[test]
fn over_zero() {
    let mut compared = Compared::default();
    let (nums, _) = edges();
    let random = random_fractions(500, 1_000_000).map(|(num, _)| num);
    for num in nums.into_iter().chain(random) {
        compared.so(round((num, 0)) == 0, &[(num, 0)]);
    }
    compared.done("answers over a divisor of 0 with 0", 0);
}

/// Random fractions are rounded as the reference does it. Only the least i64 over 1 has an answer of size 2^63, and it is among them.
#[test]
fn random_fractions_and_ties() {
    let mut compared = Compared::default();
    let mut largest = 0u64;
    for (num, den) in random_fractions(501, 5_000_000) {
        let wanted = nearest(num.into(), den.into());
        compared.so(round((num, den)) == wanted, &[(num, den)]);
        largest += u64::from(wanted.abs() == 1 << 63);
    }
    let what = "answers to random fractions with the reference";
    compared.done(&format!("{what}, {largest} of size 2^63"), 100_000);
    assert!(largest > 1_000);
}

/// 01, "Shear": "to the nearest, ties away from zero", in these words alone: a number is no farther from the fraction than half of 1,
/// and where it is just as far, the fraction is nearer to 0.
fn is_nearest(number: i128, (num, den): Fraction) -> bool {
    let (num, den) = (i128::from(num), i128::from(den));
    let product = number * den;
    let distance = (product - num).abs();
    match distance.cmp(&(den - distance)) {
        Ordering::Less => true,
        Ordering::Equal => product.abs() > num.abs(),
        Ordering::Greater => false,
    }
}

/// Of these numbers the answer is nearest by the words, and no other is.
fn only_nearest(fraction: Fraction, among: impl Iterator<Item = i128>) -> bool {
    let found = among.filter(|&number| is_nearest(number, fraction));
    found.eq([round(fraction)])
}

/// The answer is nearest, and the numbers beside it are not: those beyond them are farther still. Of small fractions all numbers from
/// -100 to 100 are tried, and no fraction is beyond these.
#[test]
fn nearest_by_its_words() {
    let mut compared = Compared::default();
    let random = random_fractions(502, 2_000_000);
    for fraction in edge_fractions().into_iter().chain(random) {
        let answer = round(fraction);
        let said = only_nearest(fraction, answer - 1..=answer + 1);
        compared.so(said, &[fraction]);
    }
    for fraction in small_fractions(100, 60) {
        compared.so(only_nearest(fraction, -100..=100), &[fraction]);
    }
    compared.done("answers with the words of 01", 50_000);
}

/// 02, A5: "a fraction with its sign turned gives the same number with its sign turned". The least i64 cannot be turned.
#[test]
fn a_turned_sign_turns_the_number() {
    let mut compared = Compared::default();
    let mut least = 0u64;
    let (nums, _) = edges();
    let over_zero = nums.into_iter().map(|num| (num, 0));
    let edges = edge_fractions().into_iter().chain(over_zero);
    for (num, den) in edges.chain(random_fractions(503, 4_000_000)) {
        let Some(turned) = num.checked_neg() else {
            least += 1;
            continue;
        };
        let said = round((turned, den)) == -round((num, den));
        compared.so(said, &[(num, den), (turned, den)]);
    }
    let what = "answers with those to the sign turned";
    compared.done(
        &format!("{what}, but for {least} of the least i64"),
        100_000,
    );
    assert!(least > 1_000);
}

/// The order of two fractions, by multiplying out. A product is below 2^127.
fn by_value(&(a, b): &Fraction, &(c, d): &Fraction) -> Ordering {
    (i128::from(a) * i128::from(d)).cmp(&(i128::from(c) * i128::from(b)))
}

/// Pairs of fractions, of which the larger has the larger answer, or the answers are equal.
#[derive(Default)]
struct Pairs {
    compared: Compared,
    /// Of one fraction, written in two ways.
    equal: u64,
    /// Of two fractions with one answer.
    together: u64,
    /// Of two fractions with two answers.
    apart: u64,
}

impl Pairs {
    /// 02, A5: "a larger fraction never gives a smaller number", whichever of the two is the larger. Equal ones give equal numbers.
    fn in_order(&mut self, one: Fraction, other: Fraction) {
        let order = by_value(&one, &other);
        let answers = round(one).cmp(&round(other));
        let said = answers == order || answers.is_eq();
        self.compared.so(said, &[one, other]);
        match (order, answers) {
            (Ordering::Equal, _) => self.equal += u64::from(one != other),
            (_, Ordering::Equal) => self.together += 1,
            _ => self.apart += 1,
        }
    }

    /// Each sort of pair was met so often or more.
    fn done(self, what: &str, least: u64) {
        let Pairs {
            equal,
            together,
            apart,
            ..
        } = self;
        let sorts = format!("{equal} equal, {together} with one answer, {apart} with two");
        self.compared
            .done(&format!("pairs of {what}: {sorts}; in them"), least);
        assert!([equal, together, apart].iter().all(|&sort| sort >= least));
    }
}

/// The edges sorted by value have their answers in order, and so has every pair of them. Of small fractions every pair is compared.
#[test]
fn a_larger_edge_never_gives_a_smaller_number() {
    let mut pairs = Pairs::default();
    let mut sorted = edge_fractions();
    sorted.sort_unstable_by(by_value);
    for pair in sorted.windows(2) {
        pairs.in_order(pair[0], pair[1]);
    }
    let small = small_fractions(30, 30);
    for (i, one) in small.iter().enumerate() {
        for other in &small[..i] {
            pairs.in_order(*one, *other);
        }
    }
    pairs.done("edges and small fractions", 10_000);
}

/// Another fraction near one: both numbers some times over, then neither or one of them moved by one.
fn near(rng: &mut Rng, one: Fraction) -> Fraction {
    let (num, den) = one;
    let most = (i64::MAX as u64 / num.unsigned_abs().max(1)).min(u64::MAX / den);
    loop {
        let times = 1 + i128::from(any_width(rng) % most.max(1));
        let (more, over) = rng.pick(&[(0, 0), (1, 0), (-1, 0), (0, 1), (0, -1)]);
        let num = i64::try_from(times * i128::from(num) + more);
        let den = u64::try_from(times * i128::from(den) + over);
        match (num, den) {
            (Ok(num), Ok(den)) if den > 0 && (num, den) != one => return (num, den),
            _ => (),
        }
    }
}

/// Random pairs, three of four near each other.
#[test]
fn a_larger_fraction_never_gives_a_smaller_number() {
    let mut rng = Rng::new(504);
    let mut pairs = Pairs::default();
    for one in random_fractions(505, 4_000_000) {
        let other = if rng.one_in(4) {
            random_fraction(&mut rng)
        } else {
            near(&mut rng, one)
        };
        pairs.in_order(one, other);
    }
    pairs.done("random fractions", 100_000);
}

/// 01, "Shear": the whole fraction of a change of along wind, a vertical wind and an airspeed, in hundred-thousandths.
fn shear(change: i64, vertical: i64, airspeed: i64) -> Fraction {
    let num = change * 18_520 * airspeed - vertical * 1_765_197;
    (100_000 * num, (1_765_197 * airspeed) as u64)
}

/// What nobody is to read into the laws.
#[test]
fn what_the_laws_do_not_say() {
    let mut compared = Compared::default();
    // A larger fraction may give the same number.
    for (less, more) in [
        ((1, 3), (2, 5)),
        ((-1, 3), (1, 3)),
        ((1, 2), (1, 1)),
        ((-7, 5), (-1, 1)),
    ] {
        assert!(by_value(&less, &more).is_lt());
        compared.so(round(less) == round(more), &[less, more]);
    }
    // The rule is not "half up", which is one more for a negative tie.
    let odd = (-99_999..=99_999).step_by(2);
    for num in odd.chain([i64::MIN + 1, i64::MAX]) {
        let half_up = (i128::from(num) + 1) / 2;
        let wanted = half_up - i128::from(num < 0);
        compared.so(round((num, 2)) == wanted, &[(num, 2)]);
    }
    for sign in [1, -1] {
        // To tenths and then to whole numbers is not once: 0.45 is 0.5 is 1.
        let tenths = round((sign * 45, 10)) as i64;
        let twice = round((tenths, 10));
        let once = round((sign * 45, 100));
        compared.so((twice, once) == (sign.into(), 0), &[(sign * 45, 100)]);
        // 01, "Slips this must catch": the two terms of a shear, each on its own, are not the whole fraction.
        let apart = round(shear(sign, 0, 14_000)) + round(shear(0, -3 * sign, 14_000));
        let whole = shear(sign, -3 * sign, 14_000);
        let wanted = (i128::from(sign) * 1_070, i128::from(sign) * 1_071);
        compared.so((apart, round(whole)) == wanted, &[whole]);
    }
    compared.done("answers with what the laws leave open", 0);
}

/// 01, "Shear": the worked shears over their divisors as they come and reduced, and with both winds turned. The along wind's are for
/// any airspeed.
#[test]
fn worked_shears() {
    let rows = [
        (0, 0, 14_000..=14_000, 0),
        (0, -1_000, 14_000..=14_000, 7_143),
        (0, -3, 8_000..=8_000, 38),
        (0, 3, 8_000..=8_000, -38),
        (2_000, 0, 6_000..=60_000, 2_098_349),
        (1_999, 0, 6_000..=60_000, 2_097_300),
    ];
    let mut compared = Compared::default();
    for (change, vertical, airspeeds, held) in rows {
        for airspeed in airspeeds {
            for sign in [1, -1] {
                let (num, den) = shear(sign * change, sign * vertical, airspeed);
                let common = common_divisor(num.unsigned_abs(), den);
                for divided in [1, common] {
                    let fraction = (num / divided as i64, den / divided);
                    let wanted = i128::from(sign) * held;
                    compared.so(round(fraction) == wanted, &[fraction]);
                }
            }
        }
    }
    compared.done("answers to worked shears with the held ones", 0);
}

/// The greatest common divisor, by Euclid.
fn common_divisor(a: u64, b: u64) -> u64 {
    if b == 0 {
        a
    } else {
        common_divisor(b, a % b)
    }
}
