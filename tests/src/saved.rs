//! A text as a spreadsheet saves it, and mended.

use crate::csv::IS_SPEED;

/// As LibreOffice Calc saves a plain text by default: LF line ends, and no zeros at the end of a decimal. With it, how many line ends and how many
/// speeds it changed.
pub fn saved(text: &[u8]) -> (Vec<u8>, usize, usize) {
    let text = std::str::from_utf8(text).unwrap();
    let (mut lines, mut speeds) = (Vec::new(), 0);
    for (place, line) in text.lines().enumerate() {
        let fields = line.split(',').enumerate().map(|(field, content)| {
            let short = content.trim_end_matches('0').trim_end_matches('.');
            let changed = place > 0 && IS_SPEED[field] && short.len() < content.len();
            speeds += usize::from(changed);
            if changed { short } else { content }
        });
        lines.push(fields.collect::<Vec<_>>().join(",") + "\n");
    }
    (lines.concat().into_bytes(), lines.len(), speeds)
}

/// What `tidy` makes of a text without quotes, worked out in another way than there: line by line and field by field.
pub fn mended(text: &str) -> (String, usize, usize) {
    let (mut mended, mut ends, mut speeds) = (String::new(), 0, 0);
    for (place, whole) in text.split_inclusive('\n').enumerate() {
        let line = whole.trim_end_matches('\n');
        let line = if line.len() < whole.len() { line.strip_suffix('\r').unwrap_or(line) } else { line };
        let fields: Vec<_> = line.split(',').collect();
        let with_decimals = |(field, content): (usize, &&str)| {
            let zeros = match content.trim_start_matches(['+', '-']).split_once('.') {
                _ if place == 0 || fields.len() != 10 || !IS_SPEED[field] => "",
                // a sign at most, and digits
                _ if content.parse::<f64>().is_err() || content.contains(|c| !"+-.0123456789".contains(c)) => "",
                None => ".00",
                Some((whole, tenths)) if !whole.is_empty() && tenths.len() == 1 => "0",
                Some(_) => "",
            };
            speeds += usize::from(!zeros.is_empty());
            format!("{content}{zeros}")
        };
        let fields: Vec<_> = fields.iter().enumerate().map(with_decimals).collect();
        mended += &fields.join(",");
        if whole.ends_with('\n') {
            mended += "\r\n";
            ends += usize::from(!whole.ends_with("\r\n"));
        }
    }
    (mended, ends, speeds)
}
