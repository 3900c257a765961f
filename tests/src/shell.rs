//! Commands run as a shell runs them, and what they leave.

use std::fs;
use std::io::Write;
use std::os::fd::OwnedFd;
use std::os::unix::net::UnixStream;
use std::os::unix::process::ExitStatusExt;
use std::path::{Path, PathBuf};
use std::process::{Child, Command, Stdio};

/// The repository.
pub const ROOT: &str = concat!(env!("CARGO_MANIFEST_DIR"), "/..");

/// What a command left: its status as a shell gives it, its output, and what it said on standard error.
#[derive(Debug, PartialEq)]
pub struct Left {
    pub status: i32,
    pub out: String,
    pub said: String,
}

pub fn left(status: i32, out: &str, said: &str) -> Left {
    Left { status, out: out.into(), said: said.into() }
}

/// What was tried, what it left, and what it was to leave.
pub type Case = (&'static str, Left, Left);

pub fn compare(cases: Vec<Case>, what: &str) {
    for (tried, left, wanted) in &cases {
        assert_eq!(left, wanted, "{tried}");
    }
    println!("compared {} {what}", cases.len());
}

/// The C locale, so that the shell's reasons are in English; nothing on standard input unless a test says so.
pub fn command(path: &str) -> Command {
    let mut command = Command::new(path);
    command.env("LC_ALL", "C").stdin(Stdio::null()).stdout(Stdio::piped()).stderr(Stdio::piped());
    command
}

/// The command started by a shell, which first does something to its own files, limits or signals.
pub fn after(first: &str, command: &Command) -> Command {
    let mut shell = self::command("sh");
    shell.arg("-c").arg(format!("{first}; exec \"$0\" \"$@\"")).arg(command.get_program()).args(command.get_args());
    if let Some(folder) = command.get_current_dir() {
        shell.current_dir(folder);
    }
    shell
}

pub fn ended(child: Child) -> Left {
    let output = child.wait_with_output().unwrap();
    let status = output.status.code().unwrap_or_else(|| 128 + output.status.signal().unwrap());
    left(status, &String::from_utf8(output.stdout).unwrap(), &String::from_utf8(output.stderr).unwrap())
}

pub fn run(command: &mut Command) -> Left {
    ended(command.spawn().unwrap())
}

/// The command run on standard input as given.
pub fn run_on(command: &mut Command, input: impl Into<Stdio>) -> Left {
    run(command.stdin(input))
}

/// The command run with standard output as given, which a test reads for itself.
pub fn run_to(command: &mut Command, output: impl Into<Stdio>) -> Left {
    run(command.stdout(output))
}

/// The folder made, and empty.
pub fn empty(folder: impl AsRef<Path>) -> PathBuf {
    let folder = folder.as_ref();
    if folder.exists() {
        fs::remove_dir_all(folder).unwrap();
    }
    fs::create_dir(folder).unwrap();
    folder.into()
}

pub fn signal(name: &str, to: &str) {
    assert!(Command::new("sh").args(["-c", "kill -s \"$0\" -- \"$1\"", name, to]).status().unwrap().success());
}

/// Standard input that gives these bytes and then fails: its other end was closed with a byte unread.
pub fn reset_after(bytes: &[u8]) -> OwnedFd {
    let (mut ours, mut theirs) = UnixStream::pair().unwrap();
    theirs.write_all(b"x").unwrap();
    ours.write_all(bytes).unwrap();
    theirs.into()
}
