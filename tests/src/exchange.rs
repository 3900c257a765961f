//! Imports and exports by the reference and the library, with lent buffers of the right length and of others.

use crate::both::Both;
use crate::csv::Refusal;
use std::collections::BTreeMap;
use std::ops::RangeInclusive;

/// Makes the calls, and counts how often each number came, 0 for what is accepted, of the right lengths.
#[derive(Default)]
pub struct Exchange {
    pub both: Both,
    came: BTreeMap<u8, u64>,
}

impl Exchange {
    pub fn new() -> Exchange {
        Exchange::default()
    }

    /// A call with a buffer of the length needed, after others with wrong ones, which 7 refuses. Where the
    /// length itself is refused, so is the call whatever the buffer.
    fn call(
        &mut self,
        needed: Result<usize, Refusal>,
        otherwise: usize,
        call: impl Fn(&Both, usize) -> Result<Vec<u8>, Refusal>,
    ) -> Result<Vec<u8>, Refusal> {
        let right = needed.unwrap_or(otherwise);
        let wrong = [
            0,
            1,
            right / 2,
            right.saturating_sub(1),
            right + 1,
            right + 24,
        ];
        for wrong in wrong.into_iter().filter(|&wrong| wrong != right) {
            let refusal = needed.err().unwrap_or((7, 0));
            assert_eq!(call(&self.both, wrong), Err(refusal));
        }
        let output = call(&self.both, right);
        assert_eq!(output.as_ref().map(Vec::len).map_err(|&e| e), needed);
        let number = needed.err().map_or(0, |(number, _)| number);
        *self.came.entry(number).or_default() += 1;
        output
    }

    /// The run file of a text, which passes its own test and runs; or what refuses the text.
    pub fn import(&mut self, text: &[u8]) -> Result<Vec<u8>, Refusal> {
        let lines = text.iter().filter(|&&byte| byte == b'\n').count();
        let needed = self.both.import_length(text);
        let file = self.call(needed, 24 * lines, |both, len| both.import(text, len))?;
        let test = self.both.test_file(&file);
        assert_eq!(
            (test.refusal, 8 + 24 * usize::from(test.count)),
            (0, file.len())
        );
        Ok(file)
    }

    /// The text of a run file, or what refuses it.
    pub fn export(&mut self, file: &[u8]) -> Result<Vec<u8>, Refusal> {
        let needed = self.both.export_length(file);
        self.call(needed, file.len(), |both, len| both.export(file, len))
    }

    /// The run file of a text that is accepted, which is exported again: to the same text where it is plain.
    pub fn accepted(&mut self, text: &[u8], is_plain: bool) -> Vec<u8> {
        let file = self.import(text).unwrap();
        let again = self.export(&file).unwrap();
        assert_eq!(again == text, is_plain, "{}", text.escape_ascii());
        file
    }

    /// A text that is refused by this number, with this place.
    pub fn refused(&mut self, text: &[u8], number: u8, place: usize) {
        let refused = self.import(text);
        let start = &text[..text.len().min(2_000)];
        assert_eq!(
            refused.err(),
            Some((number, place)),
            "{}",
            start.escape_ascii()
        );
    }

    /// Prints the line, and tests that exactly these numbers came.
    pub fn done(&self, what: &str, numbers: &[RangeInclusive<u8>]) {
        let (compared, came) = (self.both.compared(), &self.came);
        let calls: u64 = came.values().sum();
        println!("compared {compared} answers and buffers of {calls} {what}, by number {came:?}");
        let numbers = numbers.iter().cloned().flatten();
        assert!(came.keys().copied().eq(numbers), "{came:?}");
    }
}
