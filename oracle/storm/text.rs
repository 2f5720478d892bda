//! A listing's text, read character by character by document 01's words for it.

use crate::calls::{Refusal, SIZE};

// The refusals that a listing can have, and the most passes.
const REFUSALS: [u8; 14] = [1, 2, 3, 5, 6, 7, 8, 9, 10, 11, 12, 14, 15, 16];
const MOST_PASSES: usize = 16;

// How many digits a place has at least, and how many bytes a record writes at most.
const PLACE_DIGITS: usize = 4;
const MOST_BYTES: usize = 3;

// What a line can be called: as data, or by the mnemonics in the order of their numbers.
const NAMES: &str = "--- ADC AND ASL BCC BCS BEQ BIT BMI BNE BPL BRK BVC BVS CLC CLD CLI CLV CMP \
    CPX CPY DEC DEX DEY EOR INC INX INY JMP JSR LDA LDX LDY LSR NOP ORA PHA PHP PLA PLP ROL ROR RTI \
    RTS SBC SEC SED SEI STA STX STY TAX TAY TSX TXA TXS TYA";

/// What a record writes, where, and the number of what it is called: 0 for data, behind it those of
/// the mnemonics.
pub struct Line {
    pub place: usize,
    pub bytes: Vec<u8>,
    pub name: usize,
}

/// The lines of a listing, and its last one.
pub struct Lines {
    pub lines: Vec<Line>,
    pub start: usize,
    pub end: usize,
    pub passes: usize,
}

// What a text says, or nothing where it has another form.
pub fn read(text: &[u8]) -> Option<Result<Lines, Refusal>> {
    let mut reader = Reader { text, at: 0 };
    let said = match text.starts_with(b"refused") {
        true => Err(reader.refused()?),
        false => Ok(reader.lines()?),
    };
    (reader.at == text.len()).then_some(said)
}

/// A text that is read from an offset on. What has another form than asked for gives nothing.
struct Reader<'a> {
    text: &'a [u8],
    at: usize,
}

impl Reader<'_> {
    // Some words.
    fn words(&mut self, words: &str) -> Option<()> {
        let rest = self.text.get(self.at..)?;
        self.at += words.len();
        rest.starts_with(words.as_bytes()).then_some(())
    }

    // As many digits as there are, to a base: decimal, or hex in capitals.
    fn digits(&mut self, base: u32) -> Option<&str> {
        let is_digit = |c: &u8| (*c as char).is_digit(base) && !c.is_ascii_lowercase();
        let rest = self.text.get(self.at..)?;
        let count = rest.iter().take_while(|c| is_digit(c)).count();
        self.at += count;
        std::str::from_utf8(&rest[..count]).ok()
    }

    // A number in decimal, with no zero before it.
    fn decimal(&mut self) -> Option<usize> {
        let digits = self.digits(10)?;
        let number: usize = digits.parse().ok()?;
        (number.to_string() == digits).then_some(number)
    }

    // A place in hex, of four digits or more.
    fn place(&mut self) -> Option<usize> {
        let digits = self.digits(16)?;
        let is_short = digits.len() == PLACE_DIGITS;
        let is_long = digits.len() > PLACE_DIGITS && !digits.starts_with('0');
        let place = usize::from_str_radix(digits, 16).ok()?;
        ((is_short || is_long) && place <= SIZE).then_some(place)
    }

    // "refused N at OFFSET"
    fn refused(&mut self) -> Option<Refusal> {
        self.words("refused ")?;
        let number = u8::try_from(self.decimal()?).ok()?;
        self.words(" at ")?;
        let at = self.decimal()?;
        self.words("\n")?;
        (REFUSALS.contains(&number) && at <= SIZE).then_some(Refusal { number, at })
    }

    // A line for each record that writes, and the last one.
    fn lines(&mut self) -> Option<Lines> {
        let mut lines = vec![];
        loop {
            let place = self.place()?;
            let bytes = self.bytes()?;
            if bytes.is_empty() {
                return self.last(lines, place);
            }
            self.words(" ")?;
            let name = self.name()?;
            self.words("\n")?;
            lines.push(Line { place, bytes, name });
        }
    }

    // Up to three bytes, each behind a space and before another.
    fn bytes(&mut self) -> Option<Vec<u8>> {
        let mut bytes = vec![];
        while let [b' ', _, _, b' ', ..] = self.text.get(self.at..)? {
            self.words(" ")?;
            let digits = self.digits(16)?;
            let byte = u8::from_str_radix(digits, 16).ok()?;
            bytes.push(byte);
            if digits.len() != 2 || bytes.len() > MOST_BYTES {
                return None;
            }
        }
        Some(bytes)
    }

    // A mnemonic, or what stands for data.
    fn name(&mut self) -> Option<usize> {
        let letters = self.text.get(self.at..self.at + 3)?;
        self.at += 3;
        NAMES.split(' ').position(|name| name.as_bytes() == letters)
    }

    // End and passes behind a start.
    fn last(&mut self, lines: Vec<Line>, start: usize) -> Option<Lines> {
        self.words(" ")?;
        let end = self.place()?;
        self.words(" ")?;
        let passes = self.decimal()?;
        self.words("\n")?;
        let lines = Lines {
            lines,
            start,
            end,
            passes,
        };
        (1..=MOST_PASSES).contains(&passes).then_some(lines)
    }
}
