//! A request line taken apart: a word for the door, numbers, and bytes (docs/ASK.md).

pub struct Request {
    pub door: String,
    pub numbers: Vec<u64>,
    pub bytes: Option<Vec<u8>>,
}

impl Request {
    pub fn parse(line: &str, file: &[u8]) -> Option<Request> {
        let mut words = line.split(' ');
        let door = words.next()?.to_string();
        let mut numbers = Vec::new();
        let mut bytes = None;
        for word in words {
            if bytes.is_some() {
                return None;
            }
            match word {
                "le" => numbers.push(0),
                "be" => numbers.push(1),
                "@" => bytes = Some(file.to_vec()),
                _ => match word.strip_prefix('x') {
                    Some(digits) => bytes = Some(unhex(digits)?),
                    None => numbers.push(word.parse().ok()?),
                },
            }
        }
        Some(Request { door, numbers, bytes })
    }

    pub fn number(&self, i: usize) -> u64 {
        self.numbers[i]
    }

    pub fn place(&self, i: usize) -> usize {
        self.numbers[i] as usize
    }

    /// The bytes, where the line has that many numbers too.
    pub fn bytes_after(&self, count: usize) -> Option<&[u8]> {
        if self.numbers.len() == count {
            self.bytes.as_deref()
        } else {
            None
        }
    }
}

pub fn unhex(digits: &str) -> Option<Vec<u8>> {
    if digits.len() % 2 != 0 {
        return None;
    }
    (0..digits.len()).step_by(2).map(|i| u8::from_str_radix(&digits[i..i + 2], 16).ok()).collect()
}

pub fn hex(bytes: &[u8]) -> String {
    let digits: String = bytes.iter().map(|b| format!("{b:02x}")).collect();
    format!("x{digits}")
}
