//! The command `windshear` as a shop would drive it, and as nobody should: each of its commands done, refused and misused, files that can't be read or
//! written, outputs that exist. An output is there whole or not at all, and nothing else is left in its folder.

use std::collections::BTreeMap;
use std::ffi::{OsStr, OsString};
use std::fs::{self, File, OpenOptions, Permissions};
use std::io::{Read, Write};
use std::os::unix::ffi::OsStrExt;
use std::os::unix::fs::{symlink, FileTypeExt, PermissionsExt};
use std::os::unix::process::CommandExt;
use std::path::{Path, PathBuf};
use std::process::{Command, Stdio};
use std::time::{Duration, Instant};
use windshear::meaning;
use windshear_tests::csv::{self, NAMES};
use windshear_tests::examples::examples;
use windshear_tests::files::{file_of_samples, samples_in};
use windshear_tests::gen::{any, numbered, Rng, CALM};
use windshear_tests::reference::{listing, Sample, RANGES, VERSIONS};
use windshear_tests::saved::saved;
use windshear_tests::shell::{after, command, compare, empty, ended, left, reset_after, run, run_on, run_to, signal, Left, ROOT};

/// What a folder holds: names and contents. What is no regular file counts as empty.
type Contents = BTreeMap<OsString, Vec<u8>>;

/// A folder of a test's own, in which the command is run.
struct Shop(PathBuf);

impl Shop {
    fn new(name: &str) -> Shop {
        Shop(empty(Path::new(env!("CARGO_TARGET_TMPDIR")).join(format!("shop-{name}"))))
    }

    fn with(self, name: &str, content: impl AsRef<[u8]>) -> Shop {
        fs::write(self.0.join(name), content).unwrap();
        self
    }

    /// The command, as `./windshear` builds it.
    fn command(&self, arguments: &[&str]) -> Command {
        let mut command = command(&format!("{ROOT}/target/bin/windshear"));
        command.args(arguments).current_dir(&self.0);
        command
    }

    fn run(&self, arguments: &[&str]) -> Left {
        run(&mut self.command(arguments))
    }

    /// The command given these bytes on standard input.
    fn fed(&self, arguments: &[&str], bytes: impl AsRef<[u8]>) -> Left {
        run_on(&mut self.command(arguments), input(bytes))
    }

    fn read(&self, name: &str) -> Vec<u8> {
        fs::read(self.0.join(name)).unwrap()
    }

    fn contents(&self) -> Contents {
        let entries = fs::read_dir(&self.0).unwrap().map(Result::unwrap);
        let content = |path: &Path| if path.is_file() { fs::read(path).unwrap_or_default() } else { Vec::new() };
        entries.map(|entry| (entry.file_name(), content(&entry.path()))).collect()
    }

    /// What a command left that must leave the folder as it was.
    fn unchanged(&self, run: impl FnOnce(&Shop) -> Left) -> Left {
        let before = self.contents();
        let left = run(self);
        assert_eq!(self.contents(), before, "{left:?}");
        left
    }
}

fn done() -> Left {
    left(0, "", "")
}

fn fault(said: &str) -> Left {
    left(2, "", &format!("windshear: {said}\n"))
}

fn refused(number: u16, place: usize) -> Left {
    left(1, "", &format!("refused {number} at {place}: {}\n", meaning(number)))
}

fn counts(ends: usize, speeds: usize) -> String {
    let counted = |n: usize, what: &str| if n == 1 { format!("1 {what}") } else { format!("{n} {what}s") };
    format!("{} and {}", counted(ends, "line end"), counted(speeds, "speed"))
}

/// What tidy says.
fn tidied(ends: usize, speeds: usize) -> String {
    format!("tidied {}: a convenience outside the rules, by which import judges\n", counts(ends, speeds))
}

fn text(list: &[Sample]) -> String {
    String::from_utf8(csv::write(list)).unwrap()
}

fn string(bytes: Vec<u8>) -> String {
    String::from_utf8(bytes).unwrap()
}

/// A sample with one field just out of range.
fn bad(field: usize) -> Sample {
    let mut fields = CALM.fields();
    fields[field] = RANGES[field].1 + 1;
    Sample::from_fields(fields)
}

#[test]
fn a_shops_file_goes_in_is_listed_and_comes_out_the_same() {
    let mut rng = Rng::new(1);
    let mut lists: Vec<_> = [0, 1, 2, 40, 600, 2_600].map(|count| any(&mut rng, count)).into();
    lists.push(vec![CALM; 2_600]);
    let mut n = 0;
    for list in &lists {
        let shop = Shop::new("round").with("run.csv", csv::write(list));
        let text = shop.read("run.csv");
        assert_eq!(shop.run(&["import", "run.csv", "run.wsr"]), done());
        let file = shop.read("run.wsr");
        assert_eq!(file, csv::import(&text, 8 + 24 * list.len()).unwrap());
        assert_eq!(shop.run(&["list", "run.wsr"]), left(0, &listing(&file), ""));
        assert_eq!(shop.run(&["export", "run.wsr", "out.csv"]), done());
        assert_eq!(shop.read("out.csv"), text);
        // and with standard input and output in their place
        let through = |arguments: &[&str], name: &str, wanted: &[u8]| {
            let output = File::create(shop.0.join("through")).unwrap();
            assert_eq!(run_to(shop.command(arguments).stdin(File::open(shop.0.join(name)).unwrap()), output), done());
            assert_eq!(shop.read("through"), wanted);
        };
        through(&["import", "-", "-"], "run.csv", &file);
        through(&["export", "-", "-"], "run.wsr", &text);
        through(&["list", "-"], "run.wsr", listing(&file).as_bytes());
        fs::remove_file(shop.0.join("through")).unwrap();
        assert_eq!(shop.contents().into_keys().collect::<Vec<_>>(), ["out.csv", "run.csv", "run.wsr"]);
        n += 7;
    }
    println!("compared {n} files of runs that went in and came out");
}

/// What an export says of a file of version 2 (02, A6).
fn version_2() -> Left {
    left(1, "", "refused 3 at 0: the version is 2, and a CSV text holds version 1 only\n")
}

#[test]
fn the_examples_come_out_as_the_reference_has_them() {
    let mut n = 0;
    for (name, file) in examples() {
        let shop = Shop::new("examples").with("run.wsr", &file);
        let listed = match name {
            "behind" => refused(21, 23),
            "refused" => refused(11, 20),
            _ => left(0, &listing(&file), ""),
        };
        assert_eq!(shop.run(&["list", "run.wsr"]), listed, "{name}");
        if let Ok(length) = csv::export_length(&file) {
            let text = csv::export(&file, length).unwrap();
            assert_eq!(shop.run(&["export", "run.wsr", "-"]), left(0, &string(text), ""), "{name}");
        } else {
            let said = if name == "refused" { refused(11, 20) } else { version_2() };
            assert_eq!(shop.unchanged(|shop| shop.run(&["export", "run.wsr", "run.csv"])), said, "{name}");
        }
        n += 2;
    }
    println!("compared {n} answers to the examples");
}

#[test]
fn a_refusal_says_its_number_its_place_and_its_meaning() {
    let good = file_of_samples(&[CALM; 3]);
    let with = |at: usize, byte: u8| {
        let mut file = good.clone();
        file[at] = byte;
        file
    };
    let names = NAMES.join(",");
    let shop = Shop::new("refused").with("taken", "a file that stays");
    let mut cases = vec![
        (
            "in full",
            shop.unchanged(|shop| shop.fed(&["import", "-", "new"], text(&[CALM, bad(3)]))),
            left(1, "", "refused 14 at 1: height above ground out of range\n"),
        ),
        ("nothing", shop.unchanged(|shop| shop.run(&["import", "-", "new"])), left(1, "", "refused 23 at 0: the header line is wrong\n")),
        (
            "a blank line",
            shop.unchanged(|shop| shop.fed(&["import", "-", "new"], format!("{names}\r\n\r\n"))),
            left(1, "", "refused 24 at 0: a line or a field is malformed\n"),
        ),
    ];
    let mut files = vec![
        (1, 0, good[..7].to_vec()),
        (2, 0, with(0, b'w')),
        (3, 0, with(3, 3)),
        (4, 0, with(5, 1)),
        (5, 0, with(7, 11)),
        (6, 0, with(6, 4)),
    ];
    let mut texts = vec![
        (23, 0, text(&[CALM]).replace("pitch", "Pitch")),
        (24, 0, text(&[CALM]).replace("\r\n", ",\r\n").replacen(",\r\n", "\r\n", 1)),
        (5, 0, text(&[CALM; 2_601])),
    ];
    for field in 0..10 {
        let list = [CALM, CALM, bad(field), bad(0)];
        files.push((11 + field as u16, 2, file_of_samples(&list)));
        texts.push((11 + field as u16, 2, text(&list)));
    }
    for (number, place, file) in &files {
        let forced = &["export", "--force", "-", "taken"];
        for arguments in [&["list", "-"][..], &["export", "-", "new"], &["export", "-", "taken"], forced, &["export", "-", "-"]] {
            cases.push(("a file", shop.unchanged(|shop| shop.fed(arguments, file)), refused(*number, *place)));
        }
    }
    for (number, place, text) in &texts {
        for arguments in [&["import", "-", "new"][..], &["import", "-", "taken"], &["import", "--force", "-", "taken"], &["import", "-", "-"]] {
            cases.push(("a text", shop.unchanged(|shop| shop.fed(arguments, text)), refused(*number, *place)));
        }
    }
    compare(cases, "refusals of the command");
}

/// 02, A6: a file of version 2 is listed, with 21 for frames that are not 1 to 20, and is not exported: a text holds version 1 only.
#[test]
fn a_version_2_file_is_listed_and_not_exported() {
    let shop = Shop::new("version 2").with("taken", "a file that stays");
    let list = |elapsed: u16| samples_in(&VERSIONS[1], &numbered(&[CALM; 4], 65_530, |i| if i == 2 { elapsed } else { 1 }));
    let mut cases = Vec::new();
    for elapsed in [1, 2, 20, 0, 21, 65_535] {
        let file = list(elapsed);
        let fits = (1..=20).contains(&elapsed);
        let listed = if fits { left(0, &listing(&file), "") } else { refused(21, 2) };
        cases.push(("listed", shop.unchanged(|shop| shop.fed(&["list", "-"], &file)), listed));
        for arguments in [&["export", "-", "new"][..], &["export", "--force", "-", "taken"], &["export", "-", "-"]] {
            cases.push(("exported", shop.unchanged(|shop| shop.fed(arguments, &file)), version_2()));
        }
    }
    compare(cases, "files of version 2 by the command");
}

/// The field of each of 11 to 20, by 01's name, stands in its words, and no other number's.
#[test]
fn the_words_name_their_field() {
    let mut n = 0;
    for (field, name) in NAMES.iter().enumerate() {
        for number in (0..=8).chain(11..=21).chain(23..=24) {
            let named = meaning(number).starts_with(&format!("{name} "));
            assert_eq!(named, usize::from(number) == 11 + field, "{name}: {}", meaning(number));
            n += 1;
        }
    }
    println!("compared {n} numbers' words with the fields' names");
}

/// Standard input that gives these bytes, by a thread that writes them.
fn input(bytes: impl AsRef<[u8]>) -> Stdio {
    let (reader, mut writer) = std::io::pipe().unwrap();
    let bytes = bytes.as_ref().to_vec();
    // the command may end before it has read them
    std::thread::spawn(move || drop(writer.write_all(&bytes)));
    reader.into()
}

#[test]
fn a_text_that_tidy_mends_is_pointed_to_it() {
    let list = [CALM, Sample { along: 2_010, vertical: -5, ..CALM }];
    let plain = text(&list);
    let lf = plain.replace('\r', "");
    let short = plain.replace("20.10", "20.1");
    let both = string(saved(plain.as_bytes()).0);
    let pointed = |number: u16, ends: usize, speeds: usize| {
        left(1, "", &format!("refused {number} at 0: {}\nwindshear tidy mends this: {}\n", meaning(number), counts(ends, speeds)))
    };
    let tried = [
        ("LF line ends", lf.clone(), pointed(23, 3, 0)),
        ("a line that ends in LF", plain.replacen("\r\n", "\n", 2).replacen('\n', "\r\n", 1), pointed(24, 1, 0)),
        ("a decimal missing", short.clone(), pointed(24, 0, 1)),
        ("both", both.clone(), pointed(23, 3, 7)),
        // it would be refused by another number then, which tells more
        ("a value out of range, and LF", text(&[CALM, bad(0)]).replace('\r', ""), pointed(23, 3, 0)),
        ("too long, and LF", text(&[CALM; 2_601]).replace('\r', ""), pointed(23, 2_602, 0)),
        ("a third decimal, and LF", lf.replace("20.10", "20.101"), refused(23, 0)),
        ("a name wrong, and LF", lf.replace("climb", "Climb"), refused(23, 0)),
        ("a field too many, and a decimal missing", short.replace("20.1,", "20.1,,"), refused(24, 0)),
        ("a space", plain.replace("20.10", " 20.10"), refused(24, 0)),
        ("no end of the last line", lf.strip_suffix('\n').unwrap().into(), refused(23, 0)),
        ("CR line ends", plain.replace('\n', ""), refused(23, 0)),
        ("semicolons", lf.replace(',', ";"), refused(23, 0)),
        ("a byte order mark", format!("\u{feff}{lf}"), refused(23, 0)),
        ("a value out of range", text(&[CALM, bad(4)]), refused(15, 1)),
    ];
    let shop = Shop::new("pointed");
    let mut cases = Vec::new();
    for (what, text, wanted) in tried {
        let malformed = |left: &Left| ["refused 23 ", "refused 24 "].iter().any(|line| left.said.starts_with(line));
        let (mended, was_malformed) = (wanted.said.contains("tidy"), malformed(&wanted));
        cases.push((what, shop.unchanged(|shop| shop.fed(&["import", "-", "new"], &text)), wanted));
        // what tidy makes of it is refused by 23 or 24 no more, or still
        let tidied = shop.fed(&["tidy", "-", "-"], &text);
        let again = run_on(&mut shop.command(&["import", "-", "-"]).stdout(Stdio::null()), input(tidied.out.as_bytes()));
        assert_eq!(mended, was_malformed && !malformed(&again), "{what}: {again:?}");
    }
    compare(cases, "texts pointed to tidy, or not");
}

#[test]
fn tidy_says_how_many_it_changed() {
    let plain = text(&[CALM, Sample { along: 2_010, ..CALM }]);
    let (saved, ends, speeds) = saved(plain.as_bytes());
    let shop = Shop::new("tidy").with("saved.csv", &saved).with("plain.csv", &plain).with("empty", "").with("junk", [0, 255, 10, 13]);
    let cases = vec![
        ("saved", shop.run(&["tidy", "saved.csv", "mended.csv"]), left(0, "", &tidied(ends, speeds))),
        ("imported", shop.run(&["import", "mended.csv", "run.wsr"]), done()),
        ("as it should be", shop.run(&["tidy", "plain.csv", "-"]), left(0, &plain, &tidied(0, 0))),
        ("empty", shop.run(&["tidy", "empty", "empty.csv"]), left(0, "", &tidied(0, 0))),
        ("no text", shop.run(&["tidy", "junk", "junk.csv"]), left(0, "", &tidied(1, 0))),
        ("by standard input", shop.fed(&["tidy", "-", "-"], &saved), left(0, &plain, &tidied(ends, speeds))),
        ("exists", shop.unchanged(|shop| shop.run(&["tidy", "saved.csv", "plain.csv"])), fault("plain.csv exists, and only --force replaces it")),
        ("by force", shop.run(&["tidy", "saved.csv", "empty.csv", "--force"]), left(0, "", &tidied(ends, speeds))),
    ];
    compare(cases, "texts tidied by the command");
    assert_eq!((ends, speeds), (3, 8));
    for mended in ["mended.csv", "empty.csv"] {
        assert_eq!(string(shop.read(mended)), plain);
    }
    assert_eq!(shop.read("junk.csv"), [0, 255, 13, 10, 13]);
}

#[test]
fn wrong_usage_ends_with_2() {
    let shop = Shop::new("usage").with("a", text(&[CALM])).with("b", "");
    let usage = |words: &str| left(2, "", &format!("usage: windshear {words}\n"));
    let list = || usage("list FILE");
    let import = || usage("import [--force] FILE.csv FILE.wsr");
    let export = || usage("export [--force] FILE.wsr FILE.csv");
    let tidy = || usage("tidy [--force] IN.csv OUT.csv");
    let none = |word: &str| fault(&format!("there is no command {word}: list, import, export, tidy or help"));
    let tried: Vec<(&[&str], Left)> = vec![
        (&[], usage("COMMAND ..: list, import, export, tidy or help")),
        (&[""], none("")),
        (&["-"], none("-")),
        (&["Import", "a", "c"], none("Import")),
        (&["--force", "import", "a", "c"], none("--force")),
        (&["a\n\u{1b}[2Jb\u{9b}"], none("a??[2Jb?")),
        (&["list"], list()),
        (&["list", "a", "b"], list()),
        (&["list", ""], list()),
        (&["list", "--force", "a"], list()),
        (&["list", "-x"], list()),
        (&["list", "--", "a"], list()),
        (&["import", "a"], import()),
        (&["import", "--force", "a"], import()),
        (&["import", "a", "c", "d"], import()),
        (&["import", "a", ""], import()),
        (&["import", "", "c"], import()),
        (&["import", "--forced", "a", "c"], import()),
        (&["import", "a", "-c"], import()),
        (&["export"], export()),
        (&["export", "b", "c", "d"], export()),
        (&["tidy", "a"], tidy()),
        (&["tidy", "a", "c", "-f"], tidy()),
    ];
    let cases = tried.into_iter().map(|(arguments, wanted)| ("usage", shop.unchanged(|shop| shop.run(arguments)), wanted));
    compare(cases.collect(), "wrong usages of the command");
}

#[test]
fn help_is_printed_however_it_is_asked_for() {
    let shop = Shop::new("help").with("a", "");
    let help = shop.run(&["help"]);
    for words in [
        "windshear list FILE ",
        "windshear import FILE.csv FILE.wsr ",
        "windshear export FILE.wsr FILE.csv ",
        "windshear tidy IN.csv OUT.csv ",
        "--force",
        "Exit status: 0 done; 1 refused; 2 misuse",
        "tidy is a convenience outside the rules",
    ] {
        assert!(help.out.contains(words), "{words}");
    }
    assert!(help.out.lines().all(|line| line.len() <= 80));
    let asked: [&[&str]; 8] = [
        &["help"],
        &["--help"],
        &["-h"],
        &["help", "import"],
        &["list", "--help"],
        &["import", "-h"],
        &["export", "a", "b", "--help"],
        &["tidy", "--help", "a", "b"],
    ];
    compare(asked.map(|arguments| ("help", shop.unchanged(|shop| shop.run(arguments)), left(0, &help.out, ""))).into(), "prints of the help");
}

#[test]
fn an_input_that_cannot_be_read_ends_with_2() {
    let shop = Shop::new("inputs").with("mode 0", text(&[CALM]));
    fs::set_permissions(shop.0.join("mode 0"), Permissions::from_mode(0)).unwrap();
    symlink("loop", shop.0.join("loop")).unwrap();
    symlink("nowhere", shop.0.join("dangling")).unwrap();
    let long = "n".repeat(300);
    let mut names = vec![
        ("none", "none", "No such file or directory"),
        ("a\nb\u{1b}[2J: c", "a?b?[2J: c", "No such file or directory"),
        (".", ".", "Is a directory"),
        ("mode 0/run", "mode 0/run", "Not a directory"),
        ("loop", "loop", "Too many levels of symbolic links"),
        ("dangling", "dangling", "No such file or directory"),
        (&long, &long, "File name too long"),
        ("/proc/self/mem", "/proc/self/mem", "Input/output error"),
    ];
    // root may read any file
    if File::open(shop.0.join("mode 0")).is_err() {
        names.push(("mode 0", "mode 0", "Permission denied"));
    }
    let mut cases = Vec::new();
    let unread = |name: &str, reason: &str| fault(&format!("{name} can't be read: {reason}"));
    for command in ["list", "import", "export", "tidy"] {
        // list takes one file
        let arguments = |name| [command, name, "new"][..if command == "list" { 2 } else { 3 }].to_vec();
        for (name, shown, reason) in &names {
            cases.push(("a name", shop.unchanged(|shop| shop.run(&arguments(name))), unread(shown, reason)));
        }
        let by = |reason| unread("standard input", reason);
        let dash = || shop.command(&arguments("-"));
        let write_only = OpenOptions::new().write(true).open("/dev/null").unwrap();
        cases.push(("closed", shop.unchanged(|_| run(&mut after("exec <&-", &dash()))), by("it is closed")));
        cases.push(("a directory", shop.unchanged(|shop| run_on(&mut dash(), File::open(&shop.0).unwrap())), by("Is a directory")));
        cases.push(("write-only", shop.unchanged(|_| run_on(&mut dash(), write_only)), by("Bad file descriptor")));
        cases.push(("reset", shop.unchanged(|_| run_on(&mut dash(), reset_after(text(&[CALM]).as_bytes()))), by("Connection reset by peer")));
        // a file is read all the same where standard input is closed; and with standard error closed too nothing is said
        cases.push(("all closed", shop.unchanged(|shop| run(&mut after("exec <&- >&- 2>&-", &shop.command(&arguments("none"))))), left(2, "", "")));
    }
    compare(cases, "inputs that can't be read");
}

/// A run of 600 records, its text and its listing, of which the last two are longer than 1,024 bytes.
fn shop_with_a_run(name: &str) -> (Shop, String) {
    let list = any(&mut Rng::new(5), 600);
    let text = text(&list);
    (Shop::new(name).with("run.csv", &text).with("run.wsr", csv::import(text.as_bytes(), 8 + 24 * 600).unwrap()), text)
}

/// Every command that writes, with the output named.
fn writers(output: &str) -> [Vec<&str>; 3] {
    [vec!["import", "run.csv", output], vec!["export", "run.wsr", output], vec!["tidy", "run.csv", output]]
}

#[test]
fn standard_output_that_cannot_be_written_ends_with_2() {
    let (shop, _) = shop_with_a_run("output");
    let full = || OpenOptions::new().write(true).open("/dev/full").unwrap();
    let read_only = || File::open("/dev/null").unwrap();
    let closed_pipe = || std::io::pipe().unwrap().1;
    let unwritten = |reason: &str| fault(&format!("standard output can't be written: {reason}"));
    let mut cases = Vec::new();
    for arguments in writers("-").into_iter().chain([vec!["list", "run.wsr"], vec!["help"]]) {
        let windshear = || shop.command(&arguments);
        cases.push(("full", run_to(&mut windshear(), full()), unwritten("No space left on device")));
        cases.push(("closed", run(&mut after("exec >&-", &windshear())), unwritten("it is closed")));
        cases.push(("closed pipe", run_to(&mut windshear(), closed_pipe()), unwritten("Broken pipe")));
        cases.push(("closed pipe, and the signal not ignored", run_to(&mut after("trap - PIPE", &windshear()), closed_pipe()), unwritten("Broken pipe")));
        cases.push(("read-only", run_to(&mut windshear(), read_only()), unwritten("Bad file descriptor")));
        let limited = empty(shop.0.join("limited")).join("file");
        cases.push(("too large", run_to(&mut after("ulimit -f 1", &windshear()), File::create(&limited).unwrap()), unwritten("File too large")));
        assert_eq!(fs::metadata(&limited).unwrap().len() % 512, 0);
        fs::remove_dir_all(shop.0.join("limited")).unwrap();
        // without standard error the status says it
        cases.push(("nobody to tell", run_to(&mut after("exec 2>&-", &windshear()), full()), left(2, "", "")));
        // a closed standard input does not matter where a file is named
        cases.push(("standard input closed", run_to(&mut after("exec <&-", &windshear()), full()), unwritten("No space left on device")));
    }
    assert_eq!(shop.contents().into_keys().collect::<Vec<_>>(), ["run.csv", "run.wsr"]);
    compare(cases, "standard outputs that can't be written");
}

#[test]
fn an_output_that_cannot_be_written_leaves_nothing() {
    let (shop, _) = shop_with_a_run("unwritten");
    fs::create_dir(shop.0.join("folder")).unwrap();
    symlink("loop", shop.0.join("loop")).unwrap();
    symlink("nowhere", shop.0.join("dangling")).unwrap();
    let long = "n".repeat(256);
    let mut names = vec![
        ("folder", "folder", "Is a directory"),
        ("folder/", "folder/", "Is a directory"),
        (".", ".", "Is a directory"),
        ("..", "..", "Is a directory"),
        ("/", "/", "Is a directory"),
        ("new/", "new/", "Is a directory"),
        ("new/.", "new/.", "Is a directory"),
        ("folder/none/new", "folder/none/new", "No such file or directory"),
        ("no\tfolder/new", "no?folder/new", "No such file or directory"),
        ("run.csv/new", "run.csv/new", "Not a directory"),
        ("loop", "loop", "Too many levels of symbolic links"),
        ("dangling", "dangling", "it is a link to no file"),
        (&long, &long, "File name too long"),
        ("/dev/full", "/dev/full", "No space left on device"),
        ("/proc/none", "/proc/none", "No such file or directory"),
    ];
    // a block device of no driver (60 is for local use), which root alone can make: were it written after all, no disk would be
    if Command::new("mknod").current_dir(&shop.0).args(["block", "b", "60", "255"]).stderr(Stdio::null()).status().unwrap().success() {
        names.push(("block", "block", "it is a block device"));
    }
    let mut cases = Vec::new();
    for (name, shown, reason) in names {
        for mut arguments in writers(name) {
            for force in [false, true] {
                if force {
                    arguments.insert(1, "--force");
                }
                let wanted = fault(&format!("{shown} can't be written: {reason}"));
                cases.push(("a name", shop.unchanged(|shop| shop.run(&arguments)), wanted));
            }
        }
    }
    // a limit on the size of a file, met in the temporary one
    for arguments in writers("new") {
        let left = shop.unchanged(|shop| run(&mut after("ulimit -f 1", &shop.command(&arguments))));
        cases.push(("too large", left, fault("new can't be written: File too large")));
    }
    compare(cases, "outputs that can't be written");
    assert!(fs::read_dir(shop.0.join("folder")).unwrap().next().is_none());
}

#[test]
fn an_output_that_exists_is_replaced_by_force_alone() {
    let (shop, text) = shop_with_a_run("exists");
    let shop = shop.with("kept", "kept");
    let wanted = |command: &str| if command == "import" { shop.read("run.wsr") } else { text.clone().into() };
    let mut cases = Vec::new();
    for mut arguments in writers("old") {
        let wanted = wanted(arguments[0]);
        let silent = |left: Left| if left.said.starts_with("tidied 0 ") { Left { said: String::new(), ..left } } else { left };
        let put = |content: &str| {
            fs::write(shop.0.join("old"), content).unwrap();
            fs::set_permissions(shop.0.join("old"), Permissions::from_mode(0o640)).unwrap();
        };
        put("old");
        cases.push(("exists", shop.unchanged(|shop| shop.run(&arguments)), fault("old exists, and only --force replaces it")));
        // wherever it stands after the command
        for at in 1..4 {
            put("old");
            let mut forced = arguments.clone();
            forced.insert(at, "--force");
            cases.push(("by force", silent(shop.run(&forced)), done()));
            assert_eq!(shop.read("old"), wanted);
            assert_eq!(fs::metadata(shop.0.join("old")).unwrap().permissions().mode() & 0o7777, 0o640);
        }
        // a link to it stays, and another name of the old file keeps what it had
        put("old");
        symlink("old", shop.0.join("link")).unwrap();
        fs::hard_link(shop.0.join("old"), shop.0.join("other")).unwrap();
        arguments[2] = "link";
        cases.push(("a link to it", shop.unchanged(|shop| shop.run(&arguments)), fault("link exists, and only --force replaces it")));
        arguments.push("--force");
        cases.push(("a link, by force", silent(shop.run(&arguments)), done()));
        assert_eq!((fs::read_link(shop.0.join("link")).unwrap(), shop.read("old"), shop.read("other")), ("old".into(), wanted, b"old".to_vec()));
        for name in ["old", "link", "other"] {
            fs::remove_file(shop.0.join(name)).unwrap();
        }
        assert_eq!(shop.contents().into_keys().collect::<Vec<_>>(), ["kept", "run.csv", "run.wsr"]);
    }
    compare(cases, "outputs that exist");
}

#[test]
fn the_input_is_never_replaced() {
    let (shop, _) = shop_with_a_run("same");
    for name in ["run.csv", "run.wsr"] {
        symlink(name, shop.0.join(format!("link to {name}"))).unwrap();
        fs::hard_link(shop.0.join(name), shop.0.join(format!("other {name}"))).unwrap();
    }
    let mut cases = Vec::new();
    for (command, name) in [("import", "run.csv"), ("export", "run.wsr"), ("tidy", "run.csv")] {
        for output in [name.to_owned(), format!("./{name}"), format!("link to {name}"), format!("other {name}")] {
            let wanted = || fault(&format!("{output} can't be written: it is the input"));
            for input in [name, "-"] {
                let stdin = || File::open(shop.0.join(name)).unwrap();
                cases.push(("the input", shop.unchanged(|shop| run_on(&mut shop.command(&[command, input, &output]), stdin())), wanted()));
                cases.push(("by force", shop.unchanged(|shop| run_on(&mut shop.command(&[command, "--force", input, &output]), stdin())), wanted()));
            }
        }
    }
    compare(cases, "outputs that are the input");
}

#[test]
fn devices_and_pipes_are_written_as_they_are() {
    let (shop, text) = shop_with_a_run("devices");
    assert!(Command::new("mkfifo").arg(shop.0.join("pipe")).status().unwrap().success());
    let mut cases = Vec::new();
    for output in ["/dev/null", "/dev/stdout", "pipe"] {
        let child = shop.command(&["export", "run.wsr", output]).spawn().unwrap();
        if output == "pipe" {
            let mut written = String::new();
            File::open(shop.0.join("pipe")).unwrap().read_to_string(&mut written).unwrap();
            assert_eq!(written, text);
        }
        cases.push((output, ended(child), left(0, if output == "/dev/stdout" { &text } else { "" }, "")));
    }
    // an input that is a device is not the output of the same name
    cases.push(("/dev/null twice", shop.run(&["tidy", "/dev/null", "/dev/null"]), left(0, "", &tidied(0, 0))));
    assert!(fs::symlink_metadata(shop.0.join("pipe")).unwrap().file_type().is_fifo());
    assert_eq!(shop.contents().into_keys().collect::<Vec<_>>(), ["pipe", "run.csv", "run.wsr"]);
    compare(cases, "devices and pipes");
}

#[test]
fn names_are_taken_as_they_are() {
    let (shop, text) = shop_with_a_run("names");
    let longest = "n".repeat(255);
    let mut n = 0;
    for name in ["a b", "*", "$HOME", "'", "\"", "new\nline", "./-", "./--force", "\u{e9}", "name.", "..csv", &longest] {
        assert_eq!(shop.run(&["export", "run.wsr", name]), done(), "{name:?}");
        assert_eq!(string(shop.read(name)), text);
        assert_eq!(shop.run(&["tidy", name, "-"]).out, text);
        assert_eq!(shop.unchanged(|shop| shop.run(&["export", "run.wsr", name])).status, 2);
        n += 3;
    }
    let no_text = OsStr::from_bytes(b"n\xff");
    assert_eq!(run(shop.command(&["export", "run.wsr"]).arg(no_text)), done());
    assert_eq!(run(shop.command(&["export", "run.wsr"]).arg(no_text)), fault("n\u{fffd} exists, and only --force replaces it"));
    assert_eq!(fs::read(shop.0.join(no_text)).unwrap(), text.as_bytes());
    println!("compared {} files by their names", n + 3);
}

/// The command where a function of the C library fails or waits, in C.
fn where_the_library(shop: &Shop, does: &str, arguments: &[&str]) -> Command {
    let source = Path::new(env!("CARGO_TARGET_TMPDIR")).join(format!("{}.c", shop.0.file_name().unwrap().to_str().unwrap()));
    fs::write(&source, format!("#include <errno.h>\n#include <unistd.h>\n{does}\n")).unwrap();
    let object = source.with_extension("so");
    assert!(Command::new("gcc").args(["-shared", "-fPIC", "-o"]).args([&object, &source]).status().unwrap().success());
    let mut command = shop.command(arguments);
    command.env("LD_PRELOAD", object);
    command
}

#[test]
fn nothing_is_left_where_a_step_fails() {
    let (shop, text) = shop_with_a_run("steps");
    let shop = shop.with("old", "old");
    let fails = |function: &str| format!("int {function} {{ errno = EIO; return -1; }}");
    let steps = [
        ("the disk fails", fails("fsync(int file)"), 2),
        ("no name can be given", fails("linkat(int a, const char *b, int c, const char *d, int e)") + &fails("rename(const char *a, const char *b)"), 2),
        // a file system that has no hard links
        ("no hard links", fails("linkat(int a, const char *b, int c, const char *d, int e)"), 0),
    ];
    let mut cases = Vec::new();
    for &(what, ref does, status) in &steps {
        for output in ["new", "old"] {
            let arguments = ["export", "run.wsr", output, "--force"];
            let arguments = &arguments[..if output == "new" { 3 } else { 4 }];
            let tried = |shop: &Shop| run(&mut where_the_library(shop, does, arguments));
            if status == 2 {
                cases.push((what, shop.unchanged(tried), fault(&format!("{output} can't be written: Input/output error"))));
            } else {
                cases.push((what, tried(&shop), done()));
                assert_eq!(string(shop.read(output)), text);
            }
        }
    }
    // without hard links too, a file that exists stays
    let tried = |shop: &Shop| run(&mut where_the_library(shop, &steps[2].1, &["export", "run.wsr", "new"]));
    cases.push(("exists", shop.unchanged(tried), fault("new exists, and only --force replaces it")));
    // and one that has come to exist since the command looked
    let late = "#include <fcntl.h>\nint fsync(int file) { (void) file; return close(creat(\"late\", 0644)); }";
    for does in [late.to_owned(), format!("{late}\n{}", steps[2].1)] {
        let tried = run(&mut where_the_library(&shop, &does, &["export", "run.wsr", "late"]));
        cases.push(("it comes", tried, fault("late exists, and only --force replaces it")));
        assert_eq!(shop.read("late"), b"");
        fs::remove_file(shop.0.join("late")).unwrap();
        // which by force is replaced too
        let tried = run(&mut where_the_library(&shop, &does, &["export", "run.wsr", "late", "--force"]));
        cases.push(("it comes, by force", tried, done()));
        assert_eq!(string(shop.read("late")), text);
        fs::remove_file(shop.0.join("late")).unwrap();
    }
    assert_eq!(shop.contents().into_keys().collect::<Vec<_>>(), ["new", "old", "run.csv", "run.wsr"]);
    compare(cases, "steps that fail");
}

#[test]
fn a_signal_leaves_no_half_of_a_file() {
    let (shop, text) = shop_with_a_run("signals");
    let mut cases = Vec::new();
    for name in ["TERM", "INT", "HUP", "QUIT", "USR1", "ALRM", "XCPU", "TSTP"] {
        // while it reads, the signal ends it; whoever runs the tests may have some of them ignored, and a child inherits that
        if name == "TERM" {
            let (reader, writer) = std::io::pipe().unwrap();
            let child = shop.command(&["import", "-", "new"]).stdin(reader).process_group(0).spawn().unwrap();
            std::thread::sleep(Duration::from_millis(100));
            signal(name, &child.id().to_string());
            cases.push(("while it reads", ended(child), left(143, "", "")));
            drop(writer);
            assert!(!shop.contents().contains_key(&OsString::from("new")));
        }
        // while it has a temporary file, the output is finished, whatever comes
        let waits = "int fsync(int file) { (void) file; return usleep(999999); }";
        let child = where_the_library(&shop, waits, &["export", "run.wsr", "new"]).process_group(0).spawn().unwrap();
        let began = Instant::now();
        while shop.contents().len() < 3 && began.elapsed() < Duration::from_secs(60) {
            std::thread::sleep(Duration::from_millis(1));
        }
        let temporary = shop.contents().into_keys().next().unwrap().into_string().unwrap();
        assert!(temporary.starts_with(".windshear-") && temporary.len() == 27, "{temporary}");
        signal(name, &child.id().to_string());
        cases.push(("while it writes", ended(child), done()));
        assert_eq!(string(shop.read("new")), text);
        fs::remove_file(shop.0.join("new")).unwrap();
        assert_eq!(shop.contents().into_keys().collect::<Vec<_>>(), ["run.csv", "run.wsr"]);
    }
    compare(cases, "commands with a signal");
}

#[test]
fn of_many_at_once_one_writes_the_output() {
    let mut n = 0;
    for round in 0..20 {
        let mut shop = Shop::new("race");
        let texts: Vec<_> = (0..8).map(|i| text(&vec![Sample { along: i, ..CALM }; 300])).collect();
        for (i, text) in texts.iter().enumerate() {
            shop = shop.with(&i.to_string(), text);
        }
        let children: Vec<_> = (0..8).map(|i| shop.command(&["tidy", &i.to_string(), "out"]).spawn().unwrap()).collect();
        let statuses: Vec<_> = children.into_iter().map(|child| ended(child).status).collect();
        let winners: Vec<_> = (0..8).filter(|i| statuses[*i] == 0).collect();
        assert!(winners.len() == 1 && statuses.iter().all(|status| [0, 2].contains(status)), "{round}: {statuses:?}");
        assert_eq!(string(shop.read("out")), texts[winners[0]]);
        assert_eq!(shop.contents().len(), 9);
        n += statuses.len();
    }
    println!("compared {n} commands at once");
}

#[test]
fn an_input_of_any_size_is_read() {
    // 40 MB of lines, of which one late is out of range
    let line = text(&[CALM]).split_once("\r\n").unwrap().1.to_owned();
    let lines = 1_000_000;
    let names = NAMES.join(",") + "\r\n";
    let good = names.clone() + &line.repeat(lines);
    let bad = names + &line.repeat(lines - 1) + &text(&[bad(3)]).split_once("\r\n").unwrap().1;
    let (saved, ends, speeds) = saved(good.as_bytes());
    assert!(good.len() > 40_000_000);
    let shop = Shop::new("large").with("good.csv", &good).with("bad.csv", &bad).with("saved.csv", &saved).with("zeros", "");
    OpenOptions::new().write(true).open(shop.0.join("zeros")).unwrap().set_len(200 << 20).unwrap();
    let in_100_mb = |arguments: &[&str]| run(&mut after("ulimit -v 100000", &shop.command(arguments)));
    let memory = |name: &str| fault(&format!("{name} can't be read: out of memory"));
    let cases = vec![
        ("too many lines", shop.run(&["import", "good.csv", "new"]), refused(5, 0)),
        ("a late line", shop.run(&["import", "bad.csv", "new"]), refused(14, lines - 1)),
        (
            "as saved",
            shop.run(&["import", "saved.csv", "new"]),
            left(1, "", &format!("refused 23 at 0: {}\nwindshear tidy mends this: {}\n", meaning(23), counts(ends, speeds))),
        ),
        (
            "tidied",
            shop.run(&["tidy", "saved.csv", "mended.csv"]),
            left(0, "", &tidied(ends, speeds)),
        ),
        ("zeros, as a text", shop.run(&["import", "zeros", "new"]), refused(23, 0)),
        ("zeros, as a run", shop.run(&["export", "zeros", "new"]), refused(2, 0)),
        // memory is bounded by the input: tidy holds it once, import does without its advice where there is no room for more
        ("tidied in 100 MB", Left { out: String::new(), ..in_100_mb(&["tidy", "saved.csv", "-"]) }, left(0, "", &tidied(ends, speeds))),
        ("imported in 100 MB", in_100_mb(&["import", "saved.csv", "new"]), refused(23, 0)),
        ("listed in 100 MB", in_100_mb(&["list", "zeros"]), memory("zeros")),
        ("without an end in 100 MB", in_100_mb(&["list", "/dev/zero"]), memory("/dev/zero")),
    ];
    compare(cases, "answers to large inputs");
    assert!(shop.read("mended.csv") == good.as_bytes());
    assert_eq!(shop.contents().into_keys().collect::<Vec<_>>(), ["bad.csv", "good.csv", "mended.csv", "saved.csv", "zeros"]);
    fs::remove_dir_all(&shop.0).unwrap();
}

/// What the script looks at.
const SOURCES: [&str; 7] = [
    "crates.txt",
    "crates/low/src/lib.rt",
    "crates/high/specs/Lib.antt",
    "crates/host/proofs/Lib.antt",
    "bindings/rust/src/lib.rs",
    "bindings/rust/Cargo.toml",
    "bindings/rust/build.rs",
];

/// A copy of the repository's outside: two crates below `host`, `host_c` above it and one beside it, with an `rt` and a `cargo` that say what they are
/// asked, and in which folder, and fail at what the file `fails` has. The command that is built says its arguments and its input, and ends with 7.
fn repository(name: &str) -> Shop {
    // outside the checkout, in which rt takes no second crates.txt and no source that no crate has
    let shop = Shop(empty(std::env::temp_dir().join(format!("windshear-{name}-{}", std::process::id()))));
    let put = |name: &str, content: &str| {
        let path = shop.0.join(name);
        fs::create_dir_all(path.parent().unwrap()).unwrap();
        fs::write(&path, content).unwrap();
        fs::set_permissions(&path, Permissions::from_mode(0o755)).unwrap();
    };
    for source in SOURCES {
        put(source, "");
    }
    put("crates.txt", "# the crates\nlow:\nbeside: low\nhigh: low bytes\nhost: high bytes\nhost_c staticlib: host bytes\n");
    put("crates/host_c/src/lib.rt", "");
    let says = "#!/bin/sh\ntop=${0%/*}/..\nasked=\"${0##*/} $* in ${PWD##*/}\"\necho \"$asked\" | tee -a \"$top/asked\"\n\
                if [ -e \"$top/fails\" ] && grep -qx \"$asked\" \"$top/fails\"; then echo 'it fails' >&2; exit 1; fi\n";
    put("bin/rt", &format!("{says}mkdir -p out\necho > \"out/lib${{PWD##*/}}.a\"\n"));
    put("bin/cargo", &format!("{says}mkdir -p target/cargo/release\nsleep 0.2\ncp bin/command target/cargo/release/windshear\n"));
    put("bin/command", "#!/bin/sh\necho \"$* $(cat)\"\nexit 7\n");
    for program in ["windshear", "staticlib"] {
        fs::copy(Path::new(ROOT).join(program), shop.0.join(program)).unwrap();
    }
    // as it may stand in a folder of programs
    symlink("../windshear", shop.0.join("bin/windshear")).unwrap();
    shop
}

/// The script called from another folder; what it says has `N` for the seconds.
fn script(shop: &Shop, arguments: &[&str]) -> Command {
    let mut script = command(shop.0.join("bin/windshear").to_str().unwrap());
    let path = format!("{}:{}", shop.0.join("bin").display(), std::env::var("PATH").unwrap());
    script.args(arguments).env("PATH", path).current_dir("/");
    script
}

fn without_seconds(left: Left) -> Left {
    let line = |line: &str| match line.rsplit_once(": ") {
        Some((step, seconds)) if seconds.ends_with(" s") => format!("{step}: N s\n"),
        _ => format!("{line}\n"),
    };
    Left { said: left.said.lines().map(line).collect(), ..left }
}

#[test]
fn the_script_builds_what_is_missing_and_then_runs_it() {
    let shop = repository("script");
    let called = || without_seconds(run_on(&mut script(&shop, &["list", "a b", "-"]), input("in")));
    let steps = ["proving low, 1 of 4", "proving high, 2 of 4", "proving host, 3 of 4", "proving host_c, 4 of 4", "building the command"];
    let said = |n: usize| steps[..n].iter().map(|step| format!("windshear: {step}: N s\n")).collect::<String>();
    let ran = |built: bool| left(7, "list a b - in\n", &said(if built { 5 } else { 0 }));
    let failed = |n: usize, asked: &str| format!("{}windshear: {}: failed\n{asked}\nit fails\nwindshear: the command can't be built\n", said(n), steps[n]);
    let fails = |what: &str| fs::write(shop.0.join("fails"), what).unwrap();
    let put = |name: &str, content: &[u8]| fs::write(shop.0.join(name), content).unwrap();
    // the folder that the script stands in
    let top = shop.0.file_name().unwrap().to_str().unwrap();
    let cargo = format!("cargo build --release --offline --manifest-path bindings/rust/Cargo.toml --target-dir target/cargo in {top}");
    let asked = ["rt lib in low", "rt lib in high", "rt lib in host", "rt lib in host_c", cargo.as_str()];
    let mut cases = vec![];
    for (n, asked) in asked.into_iter().enumerate() {
        fails(asked);
        cases.push(("a step fails", called(), left(2, "", &failed(n, asked))));
        assert!(!shop.0.join("target/bin/windshear").exists());
    }
    fails("");
    fs::remove_file(shop.0.join("asked")).unwrap();
    cases.push(("built", called(), ran(true)));
    assert_eq!(string(shop.read("asked")), asked.map(|asked| format!("{asked}\n")).concat());
    assert_eq!(string(shop.read("target/staticlib/libhost.a")), "\n");
    cases.push(("built already", called(), ran(false)));
    for source in SOURCES {
        let content = shop.read(source);
        put(source, &[&content[..], b"#"].concat());
        cases.push(("a source has changed", called(), ran(true)));
        cases.push(("and is built", called(), ran(false)));
        put(source, &content);
        cases.push(("it has changed back", called(), ran(true)));
        put(source, &content);
        cases.push(("it is only newer", called(), ran(false)));
    }
    put("crates/low/src/more.rt", b"");
    cases.push(("a source has come", called(), ran(true)));
    fs::rename(shop.0.join("crates/low/src/more.rt"), shop.0.join("crates/low/src/less.rt")).unwrap();
    cases.push(("a source has another name", called(), ran(true)));
    fs::remove_file(shop.0.join("crates/low/src/less.rt")).unwrap();
    cases.push(("a source has gone", called(), ran(true)));
    fs::remove_file(shop.0.join("target/bin/windshear.sources")).unwrap();
    cases.push(("what is there was not built to its end", called(), ran(true)));
    put("fails", b"");
    cases.push(("other files do not matter", called(), ran(false)));
    put("crates/low/src/lib.rt", b"one");
    fails("rt lib in high");
    cases.push(("what is there is not run where its sources are others", called(), left(2, "", &failed(1, "rt lib in high"))));
    fails("");
    cases.push(("but once it is built anew", called(), ran(true)));
    // what changes during the build is built the next time
    put("crates/low/src/lib.rt", b"two");
    fs::remove_file(shop.0.join("asked")).unwrap();
    let child = script(&shop, &["first"]).spawn().unwrap();
    let began = Instant::now();
    while !fs::read_to_string(shop.0.join("asked")).is_ok_and(|asked| asked.contains("cargo")) && began.elapsed() < Duration::from_secs(60) {
        std::thread::sleep(Duration::from_millis(1));
    }
    put("crates/low/src/lib.rt", b"three");
    cases.push(("the first", without_seconds(ended(child)), left(7, "first \n", &said(5))));
    cases.push(("changed meanwhile", called(), ran(true)));
    compare(cases, "calls of the script");
    fs::remove_dir_all(&shop.0).unwrap();
}

#[test]
fn the_script_names_a_program_that_is_missing_before_it_proves() {
    let shop = repository("programs");
    let tools = empty(shop.0.join("tools"));
    // what the script itself needs, where this system has it, so that its own rt and cargo are not found
    let places: Vec<_> = std::env::split_paths(&std::env::var_os("PATH").unwrap()).collect();
    for tool in ["bash", "sh", "env", "dirname", "readlink", "find", "sha256sum", "sort", "cat"] {
        let found = places.iter().map(|place| place.join(tool)).find(|path| path.exists());
        symlink(fs::canonicalize(found.unwrap()).unwrap(), tools.join(tool)).unwrap();
    }
    let mut cases = Vec::new();
    for program in ["rt", "cargo", "cc"] {
        let left = shop.unchanged(|shop| run(script(shop, &["help"]).env("PATH", &tools)));
        cases.push((program, left, fault(&format!("the command can't be built: there is no program {program}"))));
        fs::copy(shop.0.join("bin/rt"), tools.join(program)).unwrap();
    }
    compare(cases, "programs that are missing");
    assert!(!shop.0.join("asked").exists());
    fs::remove_dir_all(&shop.0).unwrap();
}

#[test]
fn two_calls_of_the_script_build_once() {
    let shop = repository("twice");
    let children: Vec<_> = (0..4).map(|_| script(&shop, &["all"]).spawn().unwrap()).collect();
    let left: Vec<_> = children.into_iter().map(ended).collect();
    assert!(left.iter().all(|left| (left.status, left.out.as_str()) == (7, "all \n")), "{left:?}");
    assert_eq!(left.iter().filter(|left| !left.said.is_empty()).count(), 1);
    assert_eq!(string(shop.read("asked")).lines().count(), 5);
    println!("compared 4 calls at once");
    fs::remove_dir_all(&shop.0).unwrap();
}

#[test]
fn the_script_hands_on_what_is_closed() {
    let shop = Shop::new("closed");
    let script = |arguments: &[&str]| {
        let mut script = command(&format!("{ROOT}/windshear"));
        script.args(arguments).current_dir(&shop.0);
        script
    };
    let cases = vec![
        ("standard input", run(&mut after("exec <&-", &script(&["list", "-"]))), fault("standard input can't be read: it is closed")),
        ("standard output", run(&mut after("exec >&-", &script(&["help"]))), fault("standard output can't be written: it is closed")),
        ("standard error", run(&mut after("exec 2>&-", &script(&["list", "none"]))), left(2, "", "")),
        ("all three", run(&mut after("exec <&- >&- 2>&-", &script(&["list", "-"]))), left(2, "", "")),
        ("none", run(&mut script(&["list", "none"])), fault("none can't be read: No such file or directory")),
    ];
    compare(cases, "calls of the script with closed files");
}
