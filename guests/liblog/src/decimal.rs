const LONGEST_NUMBER: usize = 20;

/// A number in decimal digits, with a minus in front where it is below 0.
pub struct Decimal {
    bytes: [u8; LONGEST_NUMBER],
    start: usize,
}

impl Decimal {
    pub fn new(number: i64) -> Self {
        let mut decimal = Decimal {
            bytes: [0; LONGEST_NUMBER],
            start: LONGEST_NUMBER,
        };
        let mut rest = number.unsigned_abs();
        loop {
            decimal.push_front(b'0' + (rest % 10) as u8);
            rest /= 10;
            if rest == 0 {
                break;
            }
        }
        if number < 0 {
            decimal.push_front(b'-');
        }
        decimal
    }

    fn push_front(&mut self, byte: u8) {
        self.start -= 1;
        self.bytes[self.start] = byte;
    }

    pub fn as_bytes(&self) -> &[u8] {
        &self.bytes[self.start..]
    }
}
