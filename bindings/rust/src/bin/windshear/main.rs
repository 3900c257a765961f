//! The command `windshear`: lists run files, and exchanges them with spreadsheets. Every rule is the library's; here files are read and written, and a
//! refusal is said in words.

mod files;

use files::{print, read, shown, write};
use std::env;
use std::ffi::{OsStr, OsString};
use std::io::{self, Write};
use std::process::ExitCode;
use windshear::{export_file, import_length, import_text, listing, meaning, refusal, test_file, tidy, Exchanged, Outcome, Tidied};

const HELP: &str = "\
windshear: lists run files, and exchanges them with spreadsheets

  windshear list FILE                    print the listing of a run file
  windshear import FILE.csv FILE.wsr     write the run file of a CSV text
  windshear export FILE.wsr FILE.csv     write the CSV text of a run file
  windshear tidy IN.csv OUT.csv          mend what a spreadsheet changed
  windshear help                         print this

- in place of a file is standard input, or standard output. --force, after the
command, replaces an output that exists. Name a file that begins with - as
./-NAME.

Exit status: 0 done; 1 refused; 2 misuse, or a file that can't be read or
written. A refusal is a line on standard error: its number, the place of the bad
line or record from 0, and what it means.

  refused 24 at 0: a line or a field is malformed

An output appears whole or not at all: it is written beside its place, in a file
.windshear- and 16 digits, which then gets its name. Where the machine fails
meanwhile, or SIGKILL ends the command, that file may be left: remove it. The
input is never replaced, not even with --force. Where the output is a link, the
file that it leads to is replaced. Standard output, a device or a named pipe
gets what was written before a write failed. An input of any size is read whole,
and memory grows with it: to four times its size, where import looks whether
tidy would mend a text.

A run file is of version 1, a frame for each record, or of version 2, whose
records carry the host's frame numbers: each stands for the frames since the one
before it, 1 to 20. list takes both. A CSV text has no frame numbers: import
writes version 1, and export refuses version 2 by 3.

A CSV text has a header line and a line for each sample, each ended by CRLF; its
speeds, fields 1, 2, 3 and 8, have exactly two decimals. A spreadsheet may save
it with LF line ends and without trailing zeros: import refuses that by 23 or
24, and says where tidy mends it.

tidy is a convenience outside the rules. It makes LF line ends CRLF and, in each
line of ten fields after the first, gives a speed with no decimal or one its
two. It says how many of each it changed. It changes nothing else and never
rounds: a third decimal, or a last line without its end, is left for import to
refuse.
";

const COMMANDS: &str = "list, import, export, tidy or help";

/// How the command ends where its work is not done: what it says on standard error, and its status.
struct End {
    said: String,
    status: u8,
}

impl End {
    fn misuse(said: impl Into<String>) -> End {
        End { said: said.into(), status: 2 }
    }

    fn refused(Exchanged { refusal, place }: Exchanged, words: &str) -> End {
        End { said: format!("refused {refusal} at {place}: {words}"), status: 1 }
    }
}

/// A file that can't be read or written.
impl From<String> for End {
    fn from(fault: String) -> End {
        End::misuse(format!("windshear: {fault}"))
    }
}

impl From<Exchanged> for End {
    fn from(refused: Exchanged) -> End {
        End::refused(refused, meaning(refused.refusal))
    }
}

impl From<Outcome> for End {
    fn from(Outcome { refusal, place }: Outcome) -> End {
        Exchanged { refusal, place: place.into() }.into()
    }
}

fn main() -> ExitCode {
    let arguments: Vec<_> = env::args_os().skip(1).collect();
    match run(&arguments) {
        Ok(()) => ExitCode::SUCCESS,
        Err(End { said, status }) => {
            say(&said);
            status.into()
        }
    }
}

/// A line on standard error; where that is closed there is nobody to tell.
fn say(line: &str) {
    drop(writeln!(io::stderr(), "{line}"));
}

fn run(arguments: &[OsString]) -> Result<(), End> {
    let Some((command, rest)) = arguments.split_first() else {
        return Err(End::misuse(format!("usage: windshear COMMAND ..: {COMMANDS}")));
    };
    let asks = |word: &OsString| word == "--help" || word == "-h";
    let usage = match command.to_str() {
        Some("list") => "usage: windshear list FILE",
        Some("import") => "usage: windshear import [--force] FILE.csv FILE.wsr",
        Some("export") => "usage: windshear export [--force] FILE.wsr FILE.csv",
        Some("tidy") => "usage: windshear tidy [--force] IN.csv OUT.csv",
        _ if command == "help" || asks(command) => return help(),
        _ => return Err(End::misuse(format!("windshear: there is no command {}: {COMMANDS}", shown(command)))),
    };
    let mut force = false;
    let mut files = Vec::new();
    for word in rest {
        if asks(word) {
            return help();
        } else if word == "--force" && command != "list" {
            force = true;
        } else if word == "-" || !(word.is_empty() || word.as_encoded_bytes().starts_with(b"-")) {
            files.push(word);
        } else {
            return Err(End::misuse(usage));
        }
    }
    match (command.to_str(), &files[..]) {
        (Some("list"), [file]) => list(file),
        (Some("import"), [text, file]) => import(text, file, force),
        (Some("export"), [file, text]) => export(file, text, force),
        (Some("tidy"), [from, to]) => tidy_to(from, to, force),
        _ => Err(End::misuse(usage)),
    }
}

fn help() -> Result<(), End> {
    Ok(print(|out| out.write_all(HELP.as_bytes()))?)
}

fn list(file: &OsStr) -> Result<(), End> {
    let lines = listing(&read(file)?.bytes)?;
    Ok(print(|out| out.write_all(&lines))?)
}

fn import(text: &OsStr, file: &OsStr, force: bool) -> Result<(), End> {
    let input = read(text)?;
    let output = import_text(&input.bytes).map_err(|refused| {
        let mut end = End::from(refused);
        if let Some(tidied) = mended(&input.bytes, refused) {
            end.said += &format!("\nwindshear tidy mends this: {}", counts(tidied));
        }
        end
    })?;
    Ok(write(file, force, &input, |out| out.write_all(&output))?)
}

/// What tidy would change, where that is all by which a text is malformed.
fn mended(text: &[u8], refused: Exchanged) -> Option<Tidied> {
    let malformed = |number| matches!(number, refusal::CSV_HEADER | refusal::CSV_LINE);
    if !malformed(refused.refusal) {
        return None;
    }
    let mut mended = Vec::new();
    // no text grows to more: a speed of one digit with its comma becomes five bytes. Where there is no room, nothing more is said
    mended.try_reserve_exact(text.len().saturating_mul(3)).ok()?;
    let tidied = tidy(text, &mut mended).ok()?;
    (!malformed(import_length(&mended).refusal)).then_some(tidied)
}

fn counts(Tidied { ends, speeds }: Tidied) -> String {
    let plural = |n| if n == 1 { "" } else { "s" };
    format!("{ends} line end{} and {speeds} speed{}", plural(ends), plural(speeds))
}

fn export(file: &OsStr, text: &OsStr, force: bool) -> Result<(), End> {
    let input = read(file)?;
    let output = export_file(&input.bytes).map_err(|refused| {
        // a version that is read, but not exported (02, A6)
        let version_2 = refused.refusal == refusal::VERSION && test_file(&input.bytes).refusal != refusal::VERSION;
        End::refused(refused, if version_2 { "the version is 2, and a CSV text holds version 1 only" } else { meaning(refused.refusal) })
    })?;
    Ok(write(text, force, &input, |out| out.write_all(&output))?)
}

fn tidy_to(from: &OsStr, to: &OsStr, force: bool) -> Result<(), End> {
    let input = read(from)?;
    let mut tidied = Tidied::default();
    write(to, force, &input, |out| {
        tidied = tidy(&input.bytes, out)?;
        Ok(())
    })?;
    say(&format!("tidied {}: a convenience outside the rules, by which import judges", counts(tidied)));
    Ok(())
}
