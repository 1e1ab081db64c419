//! Numbers in bytes: unsigned, low byte first.

/// The `N` bytes that start at `at`; the caller knows that they are there.
fn array_at<const N: usize>(bytes: &[u8], at: usize) -> [u8; N] {
    let mut array = [0; N];
    array.copy_from_slice(&bytes[at..at + N]);
    array
}

pub fn u16_at(bytes: &[u8], at: usize) -> u16 {
    u16::from_le_bytes(array_at(bytes, at))
}

pub fn u32_at(bytes: &[u8], at: usize) -> u32 {
    u32::from_le_bytes(array_at(bytes, at))
}

pub fn u64_at(bytes: &[u8], at: usize) -> u64 {
    u64::from_le_bytes(array_at(bytes, at))
}

/// Writes `number`, already in bytes, at `at`.
pub fn write_at(bytes: &mut [u8], at: usize, number: &[u8]) {
    bytes[at..at + number.len()].copy_from_slice(number);
}

/// The bytes in hexadecimal, `-` where there are none.
pub fn hex(bytes: &[u8]) -> String {
    if bytes.is_empty() {
        return "-".to_string();
    }
    bytes.iter().map(|byte| format!("{byte:02x}")).collect()
}

/// Takes numbers and parts from the front of some bytes, `None` where too few are left.
pub struct Reader<'a> {
    rest: &'a [u8],
}

impl<'a> Reader<'a> {
    pub fn new(bytes: &'a [u8]) -> Self {
        Self { rest: bytes }
    }

    pub fn is_at_end(&self) -> bool {
        self.rest.is_empty()
    }

    pub fn take(&mut self, length: usize) -> Option<&'a [u8]> {
        if length > self.rest.len() {
            return None;
        }
        let (part, rest) = self.rest.split_at(length);
        self.rest = rest;
        Some(part)
    }

    pub fn byte(&mut self) -> Option<u8> {
        self.take(1).map(|part| part[0])
    }

    pub fn word(&mut self) -> Option<u32> {
        self.take(4).map(|part| u32_at(part, 0))
    }

    pub fn words<const N: usize>(&mut self) -> Option<[u32; N]> {
        let part = self.take(4 * N)?;
        Some(std::array::from_fn(|i| u32_at(part, 4 * i)))
    }
}
