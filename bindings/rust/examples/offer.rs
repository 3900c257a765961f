//! Samples offered to the unit, some frames dropped, and a run file of version 2 written, read back and run.

use windshear::{
    read_record, run, test_file, write_header, write_record, Alert, Record, Sample, State,
    ANSWER_SIZE, HEADER_SIZE, RECORD_SIZE_2,
};

/// The lamp after samples of these along winds, in 0.01 kt, one in each frame, on an approach at 400 ft.
pub fn lamp_after(along_winds: &[i32]) -> Alert {
    // frame numbers go round
    let frames = (0..=u16::MAX).cycle();
    lamp_after_frames(frames.zip(along_winds.iter().copied()))
}

/// The same, each along wind with its frame number: the frames between two numbers were dropped.
pub fn lamp_after_frames(winds: impl IntoIterator<Item = (u16, i32)>) -> Alert {
    let mut sample = Sample {
        airspeed: 14_000,
        height: 400,
        pitch: 5_000,
        stall: 20_000,
        climb: -700,
        vs1: 10_000,
        mode: 1,
        ..Sample::default()
    };
    let mut lamp = Alert::None;
    let mut state = State::fresh();
    for (frame, along) in winds {
        (sample.frame, sample.along) = (frame, along);
        let (by_value, _after) = state.offer(sample);
        let answer = state.offer_lent(sample);
        assert_eq!(answer, by_value);
        match answer.lamp() {
            Ok(alert) => lamp = alert,
            Err(number) => println!("refused by {number}: the lamp stays {lamp:?}"),
        }
    }
    lamp
}

/// The ten answer bytes of a run of one record; or the number that refuses the record.
pub fn answer_to(record: &Record) -> Result<Vec<u8>, u16> {
    let mut file = [0; HEADER_SIZE + RECORD_SIZE_2];
    let (header, body) = file.split_at_mut(HEADER_SIZE);
    let number = write_header(2, 1, header).max(write_record(2, record, body));
    if number != 0 {
        return Err(number);
    }
    let read = read_record(&file, 0).expect("what was written is read");
    let floats = if read.exact { "exact" } else { "rounded" };
    println!("{floats}: {:?} is taken as {:?}", read.record, read.sample);
    let mut answers = vec![0; ANSWER_SIZE * usize::from(test_file(&file).count)];
    let outcome = run(&file, &mut answers);
    assert_eq!(outcome.refusal, 0);
    Ok(answers)
}

pub fn main() {
    println!("one gust of 20 kt: {:?}", lamp_after(&[0, 2_000]));
    // the along wind grows by 4.2 kt a second for five seconds; then a sample that is refused
    let along_winds: Vec<i32> = (0..=100).map(|i| 21 * i).chain([20_001]).collect();
    println!("an exposure: {:?}", lamp_after(&along_winds));
    // the same wind with a sample in each fifth frame alone; then one 21 frames later, which is refused
    let winds = (0..=20).map(|i| 5 * i).chain([121]);
    let winds = winds.map(|frame| (frame, 21 * i32::from(frame)));
    println!("frames dropped: {:?}", lamp_after_frames(winds));
    // 140.25 kt, a whole number of quarters, is exact; no float is 140.1 kt, and the nearest one is rounded
    for airspeed in [140.25, 140.1] {
        let record = Record {
            airspeed,
            height: 400,
            vs1: 10_000,
            frame: 65_535,
            ..Record::default()
        };
        println!("{:?}", answer_to(&record));
    }
}
