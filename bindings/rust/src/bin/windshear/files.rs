//! Files read whole, and written whole or not at all; `-` is standard input or output. A fault is told in one line.

use std::ffi::OsStr;
use std::fs::{self, File, Metadata, OpenOptions, Permissions};
use std::hash::{BuildHasher, RandomState};
use std::io::{self, BufWriter, ErrorKind, Read, Write};
use std::os::fd::AsFd;
use std::os::unix::ffi::OsStrExt;
use std::os::unix::fs::{FileTypeExt, MetadataExt, PermissionsExt};
use std::path::{Path, PathBuf};
use std::sync::atomic::{AtomicBool, Ordering::Relaxed};

/// A file's bytes, and which file that was.
pub struct Input {
    pub bytes: Vec<u8>,
    file: Metadata,
}

/// A name, its control characters replaced, as they would break the line.
pub fn shown(name: &OsStr) -> String {
    name.to_string_lossy().replace(char::is_control, "?")
}

/// The system's reason, without its number.
fn reason(error: &io::Error) -> String {
    let words = error.to_string();
    words.split(" (os error ").next().unwrap_or(&words).to_owned()
}

/// Reads a file whole.
pub fn read(name: &OsStr) -> Result<Input, String> {
    let whole = || {
        let mut file = if name == "-" { standard(io::stdin(), &INPUT_CLOSED)? } else { File::open(name)? };
        let mut bytes = Vec::new();
        file.read_to_end(&mut bytes)?;
        Ok(Input { bytes, file: file.metadata()? })
    };
    whole().map_err(|error: io::Error| {
        let name = if name == "-" { "standard input".into() } else { shown(name) };
        format!("{name} can't be read: {}", reason(&error))
    })
}

/// Writes to standard output.
pub fn print(content: impl FnOnce(&mut dyn Write) -> io::Result<()>) -> Result<(), String> {
    standard(io::stdout(), &OUTPUT_CLOSED)
        .and_then(|file| fill(&file, content))
        .map_err(|error| format!("standard output can't be written: {}", reason(&error)))
}

/// Writes a file whole or not at all. One that exists is not replaced without `force`, and the input never is. A device or a named pipe is written as it
/// is, as standard output is.
pub fn write(name: &OsStr, force: bool, input: &Input, content: impl FnOnce(&mut dyn Write) -> io::Result<()>) -> Result<(), String> {
    if name == "-" {
        return print(content);
    }
    put(Path::new(name), force, input, content).map_err(|error| match error.kind() {
        ErrorKind::AlreadyExists => format!("{} exists, and only --force replaces it", shown(name)),
        _ => format!("{} can't be written: {}", shown(name), reason(&error)),
    })
}

fn put(path: &Path, force: bool, input: &Input, content: impl FnOnce(&mut dyn Write) -> io::Result<()>) -> io::Result<()> {
    let there = match fs::metadata(path) {
        Err(error) if error.kind() == ErrorKind::NotFound => return create(path, force, content),
        there => there?,
    };
    let kind = there.file_type();
    if kind.is_dir() {
        Err(io::Error::other("Is a directory"))
    } else if kind.is_block_device() {
        Err(io::Error::other("it is a block device"))
    } else if !kind.is_file() {
        fill(&OpenOptions::new().write(true).open(path)?, content)
    } else if (there.dev(), there.ino()) == (input.file.dev(), input.file.ino()) {
        Err(io::Error::other("it is the input"))
    } else if !force {
        Err(ErrorKind::AlreadyExists.into())
    } else {
        replace(path, &there, content)
    }
}

/// Writes a file that does not exist. One that comes to exist meanwhile stays, without `force`.
fn create(path: &Path, force: bool, content: impl FnOnce(&mut dyn Write) -> io::Result<()>) -> io::Result<()> {
    if path.is_symlink() {
        return Err(io::Error::other("it is a link to no file"));
    }
    // what ends in a slash or a dot names a directory; a Path's last part is the name before it
    if !path.file_name().is_some_and(|last| path.as_os_str().as_bytes().ends_with(last.as_bytes())) {
        return Err(io::Error::other("Is a directory"));
    }
    let temporary = Temporary::beside(path)?;
    temporary.fill(content)?;
    if force {
        return fs::rename(&temporary.path, path);
    }
    match fs::hard_link(&temporary.path, path) {
        Err(error) if error.kind() != ErrorKind::AlreadyExists => {
            // a file system without hard links: the name is taken by an empty file, which is then replaced
            OpenOptions::new().write(true).create_new(true).open(path)?;
            fs::rename(&temporary.path, path).inspect_err(|_| drop(fs::remove_file(path)))
        }
        linked => linked,
    }
}

/// Replaces a file, which keeps its permissions. A link to it stays a link.
fn replace(path: &Path, there: &Metadata, content: impl FnOnce(&mut dyn Write) -> io::Result<()>) -> io::Result<()> {
    let path = if path.is_symlink() { fs::canonicalize(path)? } else { path.into() };
    let temporary = Temporary::beside(&path)?;
    temporary.file.set_permissions(Permissions::from_mode(there.mode() & 0o777))?;
    temporary.fill(content)?;
    fs::rename(&temporary.path, path)
}

/// A new file beside another, which is removed when the value is dropped, unless it was renamed by then.
struct Temporary {
    path: PathBuf,
    file: File,
}

impl Temporary {
    fn beside(other: &Path) -> io::Result<Temporary> {
        ignore(1..=64);
        loop {
            let path = other.with_file_name(format!(".windshear-{:016x}", RandomState::new().hash_one(())));
            match OpenOptions::new().write(true).create_new(true).open(&path) {
                Err(error) if error.kind() == ErrorKind::AlreadyExists => {}
                opened => return Ok(Temporary { file: opened?, path }),
            }
        }
    }

    /// Has the content on the disk before the file gets its name.
    fn fill(&self, content: impl FnOnce(&mut dyn Write) -> io::Result<()>) -> io::Result<()> {
        fill(&self.file, content)?;
        self.file.sync_all()
    }
}

impl Drop for Temporary {
    fn drop(&mut self) {
        drop(fs::remove_file(&self.path));
    }
}

fn fill(file: &File, content: impl FnOnce(&mut dyn Write) -> io::Result<()>) -> io::Result<()> {
    ignore([XFSZ]);
    let mut buffered = BufWriter::new(file);
    content(&mut buffered)?;
    buffered.flush()
}

/// Standard input or output without Rust's own handling of it, by which one that can't be used is empty, or takes all.
fn standard(stream: impl AsFd, closed: &AtomicBool) -> io::Result<File> {
    if closed.load(Relaxed) {
        return Err(io::Error::other("it is closed"));
    }
    Ok(stream.as_fd().try_clone_to_owned()?.into())
}

static INPUT_CLOSED: AtomicBool = AtomicBool::new(false);
static OUTPUT_CLOSED: AtomicBool = AtomicBool::new(false);

/// Looks whether standard input and output are open. Before `main` Rust opens /dev/null in place of one that is closed; the system calls what stands in
/// this section earlier.
#[used]
#[link_section = ".init_array"]
static LOOK: extern "C" fn() = {
    extern "C" fn look() {
        const BAD_FILE_DESCRIPTOR: Option<i32> = Some(9);
        let closed = |copy: io::Result<_>| copy.is_err_and(|error| error.raw_os_error() == BAD_FILE_DESCRIPTOR);
        INPUT_CLOSED.store(closed(io::stdin().as_fd().try_clone_to_owned()), Relaxed);
        OUTPUT_CLOSED.store(closed(io::stdout().as_fd().try_clone_to_owned()), Relaxed);
    }
    look
};

/// What a file's limit on size sends, on x86-64 Linux, which numbers its signals from 1 to 64.
const XFSZ: i32 = 25;

/// Has signals ignored from here on: all of them, as one would end the program with a temporary file left; or the one that a file's limit on size sends,
/// so that the write fails instead. SIGKILL can't be ignored.
fn ignore(signals: impl IntoIterator<Item = i32>) {
    extern "C" {
        fn signal(number: i32, action: usize) -> usize;
    }
    const IGNORED: usize = 1;
    for number in signals {
        // SAFETY: the C library's function, as it is declared there; to ignore a signal calls no code of ours.
        unsafe { signal(number, IGNORED) };
    }
}
