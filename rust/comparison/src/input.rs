//! Numbers and texts, many of them about borders.

/// A linear congruential generator.
pub struct Random(pub u128);

impl Random {
    fn word(&mut self) -> u64 {
        self.0 = self.0.wrapping_mul(0xDA94_2042_E4DD_58B5).wrapping_add(1);
        (self.0 >> 64) as u64
    }

    fn below(&mut self, end: usize) -> usize {
        (self.word() % end as u64) as usize
    }

    /// A number of any size, or one about a power of 62, about 2^64 or 2^128, or with zeros at its end.
    fn number(&mut self) -> u128 {
        let power = 62_u128.pow(self.below(22) as u32);
        let (about, factor) = (self.below(5) as u128, self.below(62) as u128);
        let wide = u128::from(self.word()) << 64 | u128::from(self.word());
        match self.below(8) {
            0 => power.wrapping_add(about).wrapping_sub(2),
            1 => u128::MAX - self.below(1000) as u128,
            2 => (1 << 64) + about - 2,
            3 => power.saturating_mul(factor).wrapping_sub(about % 2),
            _ => wide >> self.below(128),
        }
    }

    fn letter(&mut self) -> u8 {
        b"0123456789ABCDEFGHIJKLMNOPQRSTUVWXYZabcdefghijklmnopqrstuvwxyz"[self.below(62)]
    }

    /// The text of a number with leading zeros, any letters, or 2^128 - 1, in either built-in alphabet;
    /// with some bytes changed.
    fn text(&mut self, number: u128) -> Vec<u8> {
        let mut text = match self.below(3) {
            0 => ("0".repeat(self.below(12)) + &proved::encode(number)).into(),
            1 => (0..self.below(26)).map(|_| self.letter()).collect(),
            _ => b"7n42DGM5Tflk9n8mt7Fhc7".to_vec(),
        };
        if self.below(2) == 0 {
            // The same number in the alternative alphabet.
            for byte in text.iter_mut().filter(|byte| byte.is_ascii_alphabetic()) {
                *byte ^= 1 << 5;
            }
        }
        for _ in 0..self.below(3).min(text.len()) {
            let index = self.below(text.len());
            text[index] = [self.letter(), self.word() as u8][self.below(2)];
        }
        text
    }

    /// A string for a UUID in each form, or one that has another byte than such a string.
    fn uuid_string(&mut self, uuid: u128) -> Vec<u8> {
        let hyphenated = proved::uuid_to_string(uuid.to_be_bytes());
        let digits = [format!("{uuid:032x}").as_bytes(), &hyphenated][self.below(2)].to_vec();
        let (before, after) = [("", ""), ("", ""), ("{", "}"), ("urn:uuid:", "")][self.below(4)];
        let mut string = [before.as_bytes(), &digits, after.as_bytes()].concat();
        for byte in string.iter_mut().filter(|_| self.below(2) == 0) {
            byte.make_ascii_uppercase();
        }
        if self.below(3) == 0 {
            let index = self.below(string.len());
            string[index] = b"-{}:gU0"[self.below(7)];
        }
        string
    }

    /// The characters of an alphabet: any bytes, or ASCII ones.
    fn letters(&mut self) -> [u8; 62] {
        let mut bytes: Vec<u8> = (0..=[127, 255][self.below(2)]).collect();
        std::array::from_fn(|_| bytes.swap_remove(self.below(bytes.len())))
    }
}

/// What each side is given in a round.
#[derive(Debug)]
pub struct Input {
    pub number: u128,
    pub text: Vec<u8>,
    pub uuid_string: Vec<u8>,
    pub letters: [u8; 62],
    pub width: usize,
    /// Of the buffer that a call gets.
    size: usize,
}

impl Input {
    pub fn new(random: &mut Random) -> Self {
        let number = random.number();
        Input {
            number,
            text: random.text(number),
            uuid_string: random.uuid_string(number),
            letters: random.letters(),
            width: random.below(30),
            size: random.below(27),
        }
    }

    /// What a call answers that gets a part of a larger buffer, and all bytes of that one.
    pub fn buffer<T>(&self, call: impl FnOnce(&mut [u8]) -> T) -> (T, [u8; 48]) {
        let mut buffer = [b'?'; 48];
        let answer = call(&mut buffer[9..][..self.size]);
        (answer, buffer)
    }
}
