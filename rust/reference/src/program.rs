//! What the program prints for its arguments and the bytes on its standard input.
use crate::checks::Refusal;
use crate::forest::Forest;
use crate::header::words;
use crate::limits::Limits;
use crate::steps::{form, text};
use crate::text::{show, shown_bytes};

/// What a run is given: `text` says that the input is a text, `as-text` asks for the form as one.
#[derive(Clone, Default)]
pub struct Run {
    pub text: bool,
    pub as_text: bool,
    pub input: Vec<u8>,
}

/// Standard output and standard error.
#[derive(Default, PartialEq, Eq, Debug)]
pub struct Printed {
    pub output: String,
    pub error: String,
}

/// The longest text of a form that is printed, and the most bytes that are counted.
const MOST_PRINTED: u128 = 1_048_576;
const MOST_COUNTED: u128 = 1_000_000_000_000;

impl Run {
    pub fn prints(&self) -> Printed {
        match self.form() {
            Err(refusal) => self.refused(refusal),
            Ok(form) if self.as_text => as_text(words(&form)),
            Ok(form) => {
                // the header first, which the length counts too
                let lines: String = form.iter().map(|w| format!("{w:08X}\n")).collect();
                Printed { output: format!("{}\n{lines}", form.len()), ..Printed::default() }
            }
        }
    }

    fn form(&self) -> Result<Vec<u32>, Refusal> {
        let table = self.table()?;
        let (mut plain, mut result) = ([0; 131], [0; 4097]);
        let form = form(&table, Limits::DESK, &mut plain, &mut result)?;
        Ok(form.part(&plain, &result).to_vec())
    }

    fn table(&self) -> Result<Vec<u32>, Refusal> {
        if self.text {
            let mut table = [0; 65];
            let length = text(self.typed(), Limits::DESK, &mut table)?;
            return Ok(table[..length].to_vec());
        }
        if !self.input.len().is_multiple_of(4) {
            return Err(Refusal { number: 18, place: 0 });
        }
        Ok(self.input.chunks(4).map(|b| u32::from_le_bytes([b[0], b[1], b[2], b[3]])).collect())
    }

    /// The input without its final line end.
    fn typed(&self) -> &[u8] {
        match self.input.strip_suffix(b"\n") {
            Some(line) => line.strip_suffix(b"\r").unwrap_or(line),
            None => &self.input,
        }
    }

    /// Of a text that is no rule, the text itself and a caret under the place.
    fn refused(&self, Refusal { number, place }: Refusal) -> Printed {
        let mut printed = Printed { output: format!("refused {number} at {place}\n"), ..Printed::default() };
        if number == 19 {
            let shown: String = self.typed().iter().map(|&b| if matches!(b, b' '..=b'~') { b as char } else { '?' }).collect();
            printed.error = format!("{shown}\n{}^\n", " ".repeat(place - 1));
        }
        printed
    }
}

fn as_text(form: &[u32]) -> Printed {
    let bytes = shown_bytes(form);
    let too_long = format!("over the {MOST_PRINTED} that are printed");
    if bytes > MOST_COUNTED {
        let error = format!("the text of the form has over {MOST_COUNTED} bytes, {too_long}\n");
        return Printed { error, ..Printed::default() };
    }
    if bytes > MOST_PRINTED {
        return Printed { error: format!("the text of the form has {bytes} bytes, {too_long}\n"), ..Printed::default() };
    }
    let mut forest = Forest::new();
    let tree = *forest.of_words(form).last().expect("a form has a word");
    Printed { output: format!("{}\n", show(&forest, tree)), ..Printed::default() }
}

#[cfg(test)]
mod tests {
    use super::*;
    use crate::edges::chain_of_next;

    fn bytes(table: &[u32]) -> Vec<u8> {
        table.iter().flat_map(|word| word.to_le_bytes()).collect()
    }

    /// Standard output and standard error.
    fn printed(arguments: &str, input: &[u8]) -> (String, String) {
        let given = |argument| arguments.split(' ').any(|given| given == argument);
        let Printed { output, error } = Run { text: given("text"), as_text: given("as-text"), input: input.to_vec() }.prints();
        (output, error)
    }

    #[test]
    fn always_as_document_02_prints_it() {
        let input = bytes(&[0x0000_0002, 0x3000_0001, 0xE000_0001]);
        // in Delta-2, so that its plain table is its form
        let expected = "4\n001F0003\n10000000\n30000001\nA0004002\n".to_string();
        assert_eq!(printed("", &input), (expected.clone(), "".into()));
        assert_eq!(printed("text", b"Gp1\r\n"), (expected, "".into()));
        assert_eq!(printed("", &input[..7]), ("refused 18 at 0\n".into(), "".into()));
        assert_eq!(printed("", &[]), ("refused 1 at 0\n".into(), "".into()));
        // a file that is cut
        assert_eq!(printed("", &input[..8]), ("refused 23 at 0\n".into(), "".into()));
        assert_eq!(printed("", &input[..4]), ("refused 23 at 0\n".into(), "".into()));
        assert_eq!(printed("as-text", &input), ("(false R p1)\n".into(), "".into()));
        assert_eq!(printed("text as-text", b"Gp1"), ("(false R p1)\n".into(), "".into()));
    }

    #[test]
    fn long_inputs() {
        let of = |count: u32, words: usize| printed("", &bytes(&[vec![0x001F_8000 + count], chain_of_next(words)].concat())).0;
        assert!(of(64, 64).starts_with("65\n001F8040\n30000001\n70000001\n"));
        assert_eq!([of(65, 65), of(65, 64), of(16_383, 0), of(65, 5_000)], ["refused 2 at 0\n"; 4]);
        assert_eq!([of(64, 65), of(64, 5_000), of(64, 63), of(1, 0)], ["refused 23 at 0\n"; 4]);
        assert_eq!([of(0, 64), of(0, 5_000), of(0, 0)], ["refused 1 at 0\n"; 3]);
    }

    #[test]
    fn texts() {
        assert_eq!(printed("text", b"(p1\tU p2)\n"), ("refused 19 at 4\n".into(), "(p1?U p2)\n   ^\n".into()));
        assert_eq!(printed("text", b"p1\n\n"), ("refused 19 at 3\n".into(), "p1?\n  ^\n".into()));
        assert_eq!(printed("text", b"\n"), ("refused 19 at 1\n".into(), "\n^\n".into()));
        assert_eq!(printed("text", &[b' '; 1_025]), ("refused 20 at 0\n".into(), "".into()));
        assert_eq!(printed("text as-text", b"!p1"), ("!p1\n".into(), "".into()));
    }
}
