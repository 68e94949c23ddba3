//! Text that is written by hand: words, numbers and amounts, digit by digit, into one buffer that is used again.

use crate::tables::Cents;

/// The most bytes of the text, and of a reply with its line feed: an order of 15 lines takes less, and so does the
/// report.
const ROOM: usize = 65_536;

const MAX_REPLY: usize = 4_096;

/// The two digits of each number below 100.
const PAIRS: [[u8; 2]; 100] = {
    let mut pairs = [[0; 2]; 100];
    let mut number = 0;
    while number < 100 {
        pairs[number] = [b'0' + number as u8 / 10, b'0' + number as u8 % 10];
        number += 1;
    }
    pairs
};

/// A text that is not yet written out. The bytes behind its end are room.
pub struct Text {
    bytes: Box<[u8; ROOM]>,
    end: usize,
}

impl Text {
    pub fn new() -> Text {
        Text { bytes: Box::new([0; ROOM]), end: 0 }
    }

    pub fn as_bytes(&self) -> &[u8] {
        &self.bytes[..self.end]
    }

    pub fn clear(&mut self) {
        self.end = 0;
    }

    /// Whether the next reply may find no room.
    pub fn is_full(&self) -> bool {
        self.end > ROOM - MAX_REPLY
    }

    /// How many bytes it has.
    pub fn length(&self) -> usize {
        self.end
    }

    /// Takes away what stands behind so many bytes, and gives it.
    pub fn cut(&mut self, length: usize) -> &[u8] {
        let end = std::mem::replace(&mut self.end, length);
        &self.bytes[length..end]
    }

    /// Words as they are. Where they are constant this is a move or two.
    #[inline(always)]
    pub fn words(&mut self, words: &str) -> &mut Text {
        self.letters(words.as_bytes())
    }

    /// The letters of a text.
    #[inline(always)]
    pub fn letters(&mut self, letters: &[u8]) -> &mut Text {
        self.bytes[self.end..self.end + letters.len()].copy_from_slice(letters);
        self.end += letters.len();
        self
    }

    #[inline(always)]
    fn byte(&mut self, byte: u8) {
        self.bytes[self.end] = byte;
        self.end += 1;
    }

    /// The last two digits of a number below 100, a leading zero among them.
    #[inline(always)]
    fn pair(&mut self, number: u32) {
        self.bytes[self.end..self.end + 2].copy_from_slice(&PAIRS[number as usize]);
        self.end += 2;
    }

    /// A number in decimal digits.
    #[inline(always)]
    pub fn number(&mut self, number: u32) -> &mut Text {
        match number {
            0..10 => self.byte(b'0' + number as u8),
            10..100 => self.pair(number),
            100..1_000 => {
                self.byte(b'0' + (number / 100) as u8);
                self.pair(number % 100);
            }
            1_000..10_000 => {
                self.pair(number / 100);
                self.pair(number % 100);
            }
            _ => self.large(number.into()),
        }
        self
    }

    /// A number of five digits or more, pair by pair from its end.
    #[inline(never)]
    fn large(&mut self, number: u64) {
        let mut digits = [0; 20];
        let (mut first, mut rest) = (digits.len(), number);
        while rest >= 10 {
            first -= 2;
            digits[first..first + 2].copy_from_slice(&PAIRS[(rest % 100) as usize]);
            rest /= 100;
        }
        if rest > 0 {
            first -= 1;
            digits[first] = b'0' + rest as u8;
        }
        let count = digits.len() - first;
        self.bytes[self.end..self.end + count].copy_from_slice(&digits[first..]);
        self.end += count;
    }

    /// Units, a point and two digits, as `-12.34`.
    #[inline(always)]
    pub fn cents(&mut self, amount: Cents) -> &mut Text {
        if amount.0 < 0 {
            self.byte(b'-');
        }
        let cents = amount.0.unsigned_abs();
        match u32::try_from(cents) {
            Ok(cents) => {
                self.number(cents / 100);
                self.byte(b'.');
                self.pair(cents % 100);
            }
            Err(_) => {
                self.large(cents / 100);
                self.byte(b'.');
                self.pair((cents % 100) as u32);
            }
        }
        self
    }

    /// A column that may be null.
    #[inline(always)]
    pub fn nullable(&mut self, number: Option<u32>) -> &mut Text {
        match number {
            Some(number) => self.number(number),
            None => self.words("-"),
        }
    }
}
