//! The listing of each of three files of 2,600 records: today's program and an earlier one, which the argument names, by turns.
//! A time is of the whole program, from its start to its end, with its input in a file and its output in another.

use std::fs::{self, File};
use std::path::Path;
use std::process::Command;
use windshear_tests::bench::{medians, three_files};
use windshear_tests::program::program;

fn main() {
    let earlier = std::env::args().nth(1);
    let earlier = earlier.expect("the earlier program is named: bench_listing PROGRAM");
    let folder = Path::new(env!("CARGO_MANIFEST_DIR")).join("../target/bench_listing");
    fs::create_dir_all(&folder).unwrap();
    let (input, output) = (folder.join("input.wsr"), folder.join("output.txt"));
    for (name, file) in three_files() {
        fs::write(&input, file).unwrap();
        let list = |program: &Path| {
            let mut command = Command::new(program);
            let command = command.stdin(File::open(&input).unwrap());
            let command = command.stdout(File::create(&output).unwrap());
            assert!(command.status().unwrap().success());
        };
        let lines = |program: &Path| {
            list(program);
            fs::read_to_string(&output).unwrap().lines().count()
        };
        let (now, earlier) = (program(), Path::new(&earlier));
        assert!(lines(&now) == 2_602 && lines(earlier) == 2_602);
        let mut now = || list(&now);
        let mut before = || list(earlier);
        let [now, before] = medians(401, [&mut now, &mut before]);
        println!(
            "the listing of 2,600 records, {name}: now {now:.3} ms, earlier {before:.3} ms; now / earlier {:.2}",
            now / before
        );
    }
}
