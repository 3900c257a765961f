//! What a spreadsheet changed in a text, mended.

use std::io::{self, Write};

/// How many of each [`tidy`] changed.
#[derive(Clone, Copy, Debug, Default, PartialEq, Eq)]
pub struct Tidied {
    /// line ends that were LF alone
    pub ends: usize,
    /// speeds that had no decimal or one
    pub speeds: usize,
}

/// The fields of a line, and those of them that are speeds: along wind, vertical wind, true airspeed and stall speed Vs1.
const FIELDS: usize = 10;
const SPEEDS: [usize; 4] = [0, 1, 2, 7];

/// Writes a CSV text as it is, but for what a spreadsheet changes when it saves one: a line end LF becomes CRLF, and a speed with no decimal or one
/// gets its two. **It is a convenience outside the rules of the exchange**: [`import`](crate::import) reads and refuses as if it were not there.
///
/// All that it does is to insert: a CR before an LF that has none and that is not in quotes; and in a line after the first with ten fields, at the end of
/// the first, second, third and eighth, `.00` after a number with no point and `0` after one with one decimal, within the quotes of one that is quoted
/// whole. A number here is a sign or none, and then a digit or more before the point. Nothing is removed and nothing rounded: a third decimal, `12.`,
/// `.5`, a space, a CR alone and a last line without its end stay as they are, for `import` to refuse.
///
/// ```
/// use windshear::{tidy, Tidied};
///
/// let saved = "names\n20,-29.4,140.005,400,5000,20000,-700,\"100\",1,0\n";
/// let mut text = Vec::new();
/// assert_eq!(tidy(saved.as_bytes(), &mut text).unwrap(), Tidied { ends: 2, speeds: 3 });
/// assert_eq!(text, b"names\r\n20.00,-29.40,140.005,400,5000,20000,-700,\"100.00\",1,0\r\n");
/// ```
///
/// # Errors
///
/// Those of `out` alone: there is no text that it can't tidy.
pub fn tidy(text: &[u8], mut out: impl Write) -> io::Result<Tidied> {
    let mut tidied = Tidied::default();
    let mut written = 0;
    let mut insert = |what: &str, at: usize| {
        out.write_all(&text[written..at])?;
        written = at;
        out.write_all(what.as_bytes())
    };
    let mut header = true;
    let mut start = 0;
    while start < text.len() {
        let line = Line::first(&text[start..]);
        for field in SPEEDS.iter().filter(|_| !header && line.fields == FIELDS) {
            let (missing, at) = missing(&text[start..], line.starts[*field], line.starts[field + 1] - 1);
            if !missing.is_empty() {
                insert(missing, start + at)?;
                tidied.speeds += 1;
            }
        }
        if line.end == End::Lf {
            insert("\r", start + line.length)?;
            tidied.ends += 1;
        }
        start += line.length + line.end.length();
        header = false;
    }
    insert("", text.len())?;
    Ok(tidied)
}

/// How a line ends.
#[derive(Clone, Copy, PartialEq)]
enum End {
    CrLf,
    Lf,
    /// the text ends without a line end
    None,
}

impl End {
    fn length(self) -> usize {
        match self {
            End::CrLf => 2,
            End::Lf => 1,
            End::None => 0,
        }
    }
}

struct Line {
    /// how many fields it has
    fields: usize,
    /// where each of the first ten starts, and then where an eleventh would, were there a comma after the tenth
    starts: [usize; FIELDS + 1],
    /// without its end
    length: usize,
    end: End,
}

impl Line {
    /// The first line of a text. A comma or an LF in quotes is neither, where the quote is a field's first byte (RFC 4180).
    fn first(text: &[u8]) -> Line {
        let mut line = Line { fields: 1, starts: [0; FIELDS + 1], length: text.len(), end: End::None };
        let mut start = 0;
        let mut in_quotes = false;
        for (at, &byte) in text.iter().enumerate() {
            match byte {
                b'"' if in_quotes || text[start] == b'"' => in_quotes = !in_quotes,
                b',' if !in_quotes => {
                    start = at + 1;
                    if line.fields < FIELDS {
                        line.starts[line.fields] = start;
                    }
                    line.fields += 1;
                }
                b'\n' if !in_quotes => {
                    let cr = at > 0 && text[at - 1] == b'\r';
                    (line.length, line.end) = if cr { (at - 1, End::CrLf) } else { (at, End::Lf) };
                    break;
                }
                _ => {}
            }
        }
        line.starts[FIELDS] = line.length + 1;
        line
    }
}

/// What the field of a speed, from one place to another, lacks of its two decimals, and where that belongs.
fn missing(text: &[u8], from: usize, to: usize) -> (&'static str, usize) {
    let (number, end) = match &text[from..to] {
        [b'"', number @ .., b'"'] => (number, to - 1),
        number => (number, to),
    };
    let unsigned = match number {
        [b'+' | b'-', unsigned @ ..] => unsigned,
        unsigned => unsigned,
    };
    let digits = unsigned.iter().take_while(|byte| byte.is_ascii_digit()).count();
    match (digits, &unsigned[digits..]) {
        (1.., []) => (".00", end),
        (1.., [b'.', b'0'..=b'9']) => ("0", end),
        _ => ("", end),
    }
}
