//! The text that lines are made of.

/// The two digits of each byte.
const PAIRS: [[u8; 2]; 256] = {
    let digits = *b"0123456789abcdef";
    let mut pairs = [[0; 2]; 256];
    let mut byte = 0;
    while byte < 256 {
        pairs[byte] = [digits[byte >> 4], digits[byte & 15]];
        byte += 1;
    }
    pairs
};

/// A text that grows. It is cleared and used again, so that a line takes no memory of its own.
#[derive(Default)]
pub struct Text(Vec<u8>);

impl Text {
    pub fn clear(&mut self) {
        self.0.clear();
    }

    pub fn as_bytes(&self) -> &[u8] {
        &self.0
    }

    pub fn word(&mut self, word: &str) -> &mut Text {
        self.0.extend_from_slice(word.as_bytes());
        self
    }

    /// Appends a number in decimal.
    pub fn number(&mut self, number: u64) -> &mut Text {
        let mut digits = [0; 20];
        let (mut first, mut rest) = (digits.len(), number);
        loop {
            first -= 1;
            digits[first] = b'0' + (rest % 10) as u8;
            rest /= 10;
            if rest == 0 {
                self.0.extend_from_slice(&digits[first..]);
                return self;
            }
        }
    }

    /// Appends bytes by two lower case digits each.
    pub fn hex(&mut self, bytes: &[u8]) -> &mut Text {
        let digits = bytes.iter().flat_map(|byte| PAIRS[usize::from(*byte)]);
        self.0.extend(digits);
        self
    }

    pub fn show(&mut self, shown: &impl Show) -> &mut Text {
        shown.show(self);
        self
    }
}

/// What can be appended to a text.
pub trait Show {
    fn show(&self, text: &mut Text);
}
