//! The listing program and `./list` as a hostile user would run them: input that can't be read, output that can't be written, wrong
//! usage, a program that crashes. A fault is no verdict on the file: nothing is listed, and one line on standard error says what failed.

use std::fs::{self, File, OpenOptions, Permissions};
use std::io::{Seek, Write};
use std::os::fd::OwnedFd;
use std::os::unix::fs::{symlink, PermissionsExt};
use std::os::unix::net::UnixStream;
use std::os::unix::process::CommandExt;
use std::path::{Path, PathBuf};
use std::process::{Child, Command};
use std::time::Duration;
use windshear_tests::examples::{examples, FOLDER};
use windshear_tests::files::{calm_file_in, file_of_samples, samples_in};
use windshear_tests::gen::{numbered, CALM};
use windshear_tests::reference::{listing, Sample, RANGES, VERSIONS};
use windshear_tests::shell::{after, command, compare, empty, ended, left, reset_after, run, run_on, run_to, signal, ROOT};

/// The program itself, which the gate and `./list` build.
fn program() -> Command {
    command(&format!("{ROOT}/crates/listing/out/listing"))
}

fn list(file: impl AsRef<Path>) -> Command {
    let mut command = command(&format!("{ROOT}/list"));
    command.arg(file.as_ref());
    command
}

/// An empty folder of a test's own.
fn folder(name: &str) -> PathBuf {
    empty(Path::new(env!("CARGO_TARGET_TMPDIR")).join(name))
}

fn example(name: &str) -> (PathBuf, String) {
    let path = Path::new(FOLDER).join(name).with_extension("wsr");
    let text = fs::read_to_string(path.with_extension("txt")).unwrap();
    (path, text)
}

/// The longest run of each version.
fn longest() -> [Vec<u8>; 2] {
    VERSIONS.map(|version| calm_file_in(&version, version.most))
}

fn unread(reason: &str) -> String {
    format!("listing: standard input can't be read: {reason}\n")
}

fn unwritten(by: &str, reason: &str) -> String {
    format!("{by}: the listing can't be written whole: {reason}\n")
}

#[test]
fn input_that_cannot_be_read_is_no_run() {
    let folder = folder("unread");
    let fault = |reason| left(0, "", &unread(reason));
    let (gust, text) = example("gust");
    let run_file = fs::read(&gust).unwrap();
    let write_only = OpenOptions::new().write(true).create_new(true).open(folder.join("new")).unwrap();
    let cases = vec![
        ("a directory", run_on(&mut program(), File::open(&folder).unwrap()), fault("Is a directory")),
        ("closed", run(&mut after("exec <&-", &program())), fault("Bad file descriptor")),
        ("write-only", run_on(&mut program(), write_only), fault("Bad file descriptor")),
        ("reset at once", run_on(&mut program(), reset_after(b"")), fault("Connection reset by peer")),
        ("reset in the header", run_on(&mut program(), reset_after(b"WSR")), fault("Connection reset by peer")),
        ("reset after a whole run", run_on(&mut program(), reset_after(&run_file)), fault("Connection reset by peer")),
        // nothing past 65,009 bytes is read, so what would fail there is not seen
        ("reset past the bound", run_on(&mut program(), reset_after(&[0; 65_009])), left(0, "refused 2 at 0\n", "")),
        ("whole", run_on(&mut program(), File::open(&gust).unwrap()), left(0, &text, "")),
    ];
    compare(cases, "inputs of the program");
}

#[test]
fn an_input_that_stalls_is_a_fault() {
    let (mut ours, theirs) = UnixStream::pair().unwrap();
    theirs.set_read_timeout(Some(Duration::from_millis(50))).unwrap();
    ours.write_all(b"WSR").unwrap();
    let stalled = run_on(&mut program(), OwnedFd::from(theirs));
    compare(vec![("no more in time", stalled, left(0, "", &unread("Resource temporarily unavailable")))], "stalled inputs");
}

/// Stopped and continued while it waits for input, again and again; or as long as it runs.
fn interrupt(child: &Child) {
    let reached = |wanted: &str| loop {
        let stat = fs::read_to_string(format!("/proc/{}/stat", child.id())).unwrap();
        if stat.contains(wanted) || stat.contains(") Z ") {
            return stat.contains(wanted);
        }
        std::thread::sleep(Duration::from_millis(1));
    };
    let mut rounds = 0;
    while rounds < 5 && reached(") S ") {
        signal("STOP", &child.id().to_string());
        reached(") T ");
        signal("CONT", &child.id().to_string());
        rounds += 1;
    }
    reached(") S ");
}

#[test]
fn an_interrupted_read_is_tried_again() {
    let (gust, text) = example("gust");
    let file = fs::read(gust).unwrap();
    let (mut ours, theirs) = UnixStream::pair().unwrap();
    // Linux ends a read by EINTR where the process was stopped and the socket has a time limit
    theirs.set_read_timeout(Some(Duration::from_secs(600))).unwrap();
    let child = program().stdin(OwnedFd::from(theirs)).spawn().unwrap();
    for part in [&file[..50], &file[50..]] {
        interrupt(&child);
        // fails where the program has ended, which is seen below
        ours.write_all(part).ok();
    }
    drop(ours);
    compare(vec![("interrupted", ended(child), left(0, &text, ""))], "interrupted reads");
}

#[test]
fn a_listing_that_cannot_be_written_is_a_fault() {
    let folder = folder("unwritten");
    let (burst, text) = example("microburst");
    let input = || File::open(&burst).unwrap();
    let full = || OpenOptions::new().write(true).open("/dev/full").unwrap();
    let closed_pipe = || std::io::pipe().unwrap().1;
    let limit = "trap '' XFSZ; ulimit -f 1";
    let by_program = |reason| left(0, "", &unwritten("listing", reason));
    let by_list = |reason| left(2, "", &unwritten("list", reason));
    let closed = "list: the listing can't be written: standard output is closed\n";
    let cases = vec![
        ("full", run_to(program().stdin(input()), full()), by_program("No space left on device")),
        ("closed", run(after("exec >&-", &program()).stdin(input())), by_program("Bad file descriptor")),
        ("closed pipe", run_to(after("trap '' PIPE", &program()).stdin(input()), closed_pipe()), by_program("Broken pipe")),
        // a Rattle program ignores the signal by which the system would end it
        ("closed pipe, unprepared", run_to(program().stdin(input()), closed_pipe()), by_program("Broken pipe")),
        (
            "too large",
            run_to(after(limit, &program()).stdin(input()), File::create(folder.join("program")).unwrap()),
            by_program("File too large"),
        ),
        ("./list, full", run_to(&mut list(&burst), full()), by_list("No space left on device")),
        ("./list, closed", run(&mut after("exec >&-", &list(&burst))), left(2, "", closed)),
        ("./list, closed pipe", run_to(&mut list(&burst), closed_pipe()), by_list("Broken pipe")),
        (
            "./list, too large",
            run_to(&mut after("ulimit -f 1", &list(&burst)), File::create(folder.join("list")).unwrap()),
            by_list("File too large"),
        ),
        ("./list, a refusal, full", run_to(&mut list("/dev/null"), full()), by_list("No space left on device")),
    ];
    compare(cases, "outputs that can't be written");
    for cut in ["program", "list"] {
        let cut = fs::read_to_string(folder.join(cut)).unwrap();
        assert!(!cut.is_empty() && cut.len() < text.len() && text.starts_with(&cut));
    }
}

#[test]
fn arguments_are_wrong_usage() {
    let (gust, _) = example("gust");
    let mut input = File::open(&gust).unwrap();
    let mut cases = Vec::new();
    for arguments in [&["x"][..], &[""], &["-"], &["--help"], &["a", "b"]] {
        cases.push((
            "of the program",
            run_on(program().args(arguments), input.try_clone().unwrap()),
            left(0, "", "usage: listing <FILE\n"),
        ));
    }
    assert_eq!(input.stream_position().unwrap(), 0, "nothing is read");
    let gust = gust.to_str().unwrap();
    for (tried, arguments) in
        [("none", &[][..]), ("a dash", &["-"]), ("empty", &[""]), ("two", &[gust, gust]), ("a dash first", &["-", gust])]
    {
        cases.push((tried, run(command(&format!("{ROOT}/list")).args(arguments)), left(2, "", "usage: ./list FILE\n")));
    }
    compare(cases, "wrong usages");
}

/// Every refusal that a run can have, with its file and its place.
fn refusals() -> Vec<(u8, usize, Vec<u8>)> {
    let good = file_of_samples(&[CALM; 3]);
    let with = |at: usize, byte: u8| {
        let mut file = good.clone();
        file[at] = byte;
        file
    };
    let mut refusals = vec![
        (1, 0, Vec::new()),
        (1, 0, good[..7].to_vec()),
        (2, 0, with(0, b'w')),
        (3, 0, with(3, 3)),
        (4, 0, with(5, 1)),
        (5, 0, with(7, 11)),
        (6, 0, with(6, 4)),
        // the other version's length
        (6, 0, with(3, 2)),
        (21, 2, samples_in(&VERSIONS[1], &numbered(&[CALM; 4], 65_535, |i| if i == 2 { 21 } else { 20 }))),
    ];
    refusals.extend(longest().map(|file| (6, 0, [&*file, &[0; 100]].concat())));
    for (field, (_, high)) in RANGES.iter().enumerate() {
        let mut fields = CALM.fields();
        fields[field] = high + 1;
        refusals.push((11 + field as u8, 2, file_of_samples(&[CALM, CALM, Sample::from_fields(fields), CALM])));
    }
    refusals
}

#[test]
fn a_listing_ends_with_0_and_a_refusal_with_1() {
    let folder = folder("verdicts");
    let mut files: Vec<_> = examples().into_iter().map(|(_, file)| file).collect();
    files.push(file_of_samples(&[]));
    files.extend(longest());
    let mut verdicts: Vec<_> = files.into_iter().map(|file| (listing(&file), file)).collect();
    verdicts.extend(refusals().into_iter().map(|(number, place, file)| (format!("refused {number} at {place}\n"), file)));
    let mut cases = Vec::new();
    // names that a careless script would take for an option, for two words, or for a pattern
    for (i, name) in ["-n", "a b", "*", "$HOME", "'", "\"", "-", "new\nline"].iter().cycle().enumerate().take(verdicts.len()) {
        let (text, file) = &verdicts[i];
        let path = folder.join(name);
        fs::write(&path, file).unwrap();
        let status = i32::from(text.starts_with("refused"));
        cases.push(("the program", run_on(&mut program(), File::open(&path).unwrap()), left(0, text, "")));
        let relative = if *name == "-" { "./-" } else { name };
        cases.push(("./list", run(list(relative).current_dir(&folder)), left(status, text, "")));
    }
    compare(cases, "listings and refusals");
}

#[test]
fn a_file_that_cannot_be_read_ends_with_2() {
    let folder = folder("files");
    let unopened = |name: &str, reason: &str| left(2, "", &format!("list: {name} can't be opened: {reason}\n"));
    symlink("loop", folder.join("loop")).unwrap();
    fs::write(folder.join("mode 0"), b"").unwrap();
    fs::set_permissions(folder.join("mode 0"), Permissions::from_mode(0)).unwrap();
    let tried = |name: &str| run(list(name).current_dir(&folder));
    let mut cases = vec![
        ("missing", tried("none"), unopened("none", "No such file or directory")),
        ("missing, a dash first", tried("--help"), unopened("--help", "No such file or directory")),
        ("missing, control characters", tried("a\nb\x1b[2J: c"), unopened("a?b?[2J: c", "No such file or directory")),
        ("a file as a folder", tried("mode 0/run"), unopened("mode 0/run", "Not a directory")),
        ("a link to itself", tried("loop"), unopened("loop", "Too many levels of symbolic links")),
        ("a directory", tried("."), left(2, "", &unread("Is a directory"))),
        ("unmapped memory", tried("/proc/self/mem"), left(2, "", &unread("Input/output error"))),
        ("standard error closed", run(after("exec 2>&-", &list("none")).current_dir(&folder)), left(2, "", "")),
        ("all three closed", run(after("exec <&- >&- 2>&-", &list("none")).current_dir(&folder)), left(2, "", "")),
    ];
    // root may read any file
    if File::open(folder.join("mode 0")).is_err() {
        cases.push(("unreadable", tried("mode 0"), unopened("mode 0", "Permission denied")));
    }
    compare(cases, "files that can't be read");
}

#[test]
fn a_program_that_fails_ends_with_2() {
    let folder = folder("program");
    let (gust, text) = example("gust");
    // the program is a shell, so the file holds what it does
    let list_by = |does: &str| {
        fs::write(folder.join("does"), does).unwrap();
        let mut command = command(folder.join("list").to_str().unwrap());
        command.arg(folder.join("does"));
        command
    };
    let with_rt = |rt: &str| {
        let found = folder.join("rt");
        fs::remove_file(&found).ok();
        symlink(rt, &found).unwrap();
        let path = format!("{}:{}", folder.display(), std::env::var("PATH").unwrap());
        run(list_by(&format!("cat '{}'", gust.with_extension("txt").display())).env("PATH", path))
    };
    symlink(Path::new(ROOT).join("list"), folder.join("list")).unwrap();
    let fault = |said: &str| left(2, "", &format!("list: {said}\n"));
    // rt does `run` in the crate's folder: a shell does the script of that name
    fs::create_dir_all(folder.join("crates/listing")).unwrap();
    fs::write(folder.join("crates/listing/run"), "echo proving >&2 && mkdir out && ln -s /bin/sh out/listing").unwrap();
    let mut cases = vec![
        ("not built", with_rt("/bin/false"), fault("the program can't be built")),
        ("built in name only", with_rt("/bin/true"), fault("the program can't be built")),
        ("built", with_rt("/bin/sh"), left(0, &text, "proving\n")),
    ];
    let header = "sample shear alert voice command float";
    for (tried, does, wanted) in [
        ("crashed", "kill -s SEGV $$".into(), fault("the program ended with status 139")),
        ("killed at work", format!("echo {header}; kill -s KILL $$"), fault("the program ended with status 137")),
        ("ended by a status", format!("echo {header}; echo red 0 amber 0; exit 3"), fault("the program ended with status 3")),
        ("a listing cut", format!("echo {header}; echo 0 0 none"), fault("the program's output is not whole")),
        ("a refusal cut", "printf 'refused 1 at 0'".into(), fault("the program's output is not whole")),
        ("its own words", "echo so and so >&2".into(), left(2, "", "so and so\n")),
    ] {
        cases.push((tried, run(&mut list_by(&does)), wanted));
    }
    compare(cases, "programs that fail");
}

#[test]
fn nothing_is_left_behind() {
    let folder = folder("left");
    let fifo = folder.join("fifo");
    assert!(Command::new("mkfifo").arg(&fifo).status().unwrap().success());
    let mut cases = Vec::new();
    // not HUP or INT: whoever runs the tests may have them ignored, as nohup does, and a child inherits that
    for (name, status) in [("KILL", 137), ("TERM", 143)] {
        let child = list(&fifo).current_dir(&folder).env("TMPDIR", &folder).process_group(0).spawn().unwrap();
        // opens once the other end is open too
        let writer = OpenOptions::new().write(true).open(&fifo).unwrap();
        std::thread::sleep(Duration::from_millis(100));
        signal(name, &format!("-{}", child.id()));
        drop(writer);
        cases.push((name, ended(child), left(status, "", "")));
        let names: Vec<_> = fs::read_dir(&folder).unwrap().map(|entry| entry.unwrap().file_name()).collect();
        assert_eq!(names, ["fifo"], "{name}");
    }
    compare(cases, "interrupted listings");
}

#[test]
fn the_stack_that_the_readme_names_is_enough() {
    let path = folder("stack").join("longest");
    let mut cases = Vec::new();
    for file in longest() {
        fs::write(&path, &file).unwrap();
        let text = listing(&file);
        cases.push(("256 KB", run(&mut after("ulimit -s 256", &list(&path))), left(0, &text, "")));
        let crashed = left(2, "", "list: the program ended with status 139\n");
        cases.push(("128 KB", run(&mut after("ulimit -s 128", &list(&path))), crashed));
    }
    compare(cases, "listings in a small stack");
}
