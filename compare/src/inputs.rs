//! Inputs, valid and damaged, from a seed.

/// A xorshift generator.
pub struct Random(u64);

impl Random {
    pub fn new(seed: u64) -> Random {
        Random(seed | 1)
    }

    pub fn word(&mut self) -> u64 {
        self.0 ^= self.0 << 13;
        self.0 ^= self.0 >> 7;
        self.0 ^= self.0 << 17;
        self.0.wrapping_mul(0x2545_f491_4f6c_dd1d)
    }

    /// A number below `limit`.
    pub fn below(&mut self, limit: u64) -> u64 {
        (self.word() >> 11) % limit
    }
}

/// The bytes that damage puts in most often: those that a field nearly takes.
const NEAR: &[u8] = b"0123456789.-+ ,eE/:\r\n\0\xff";

fn damaging_byte(random: &mut Random) -> u8 {
    if random.below(4) == 0 {
        random.word() as u8
    } else {
        NEAR[random.below(NEAR.len() as u64) as usize]
    }
}

/// A field with one byte replaced, put in or taken out.
pub fn damaged(random: &mut Random, field: &[u8]) -> Vec<u8> {
    let mut bytes = field.to_vec();
    let place = random.below(bytes.len() as u64 + 1) as usize;
    match random.below(3) {
        0 if place < bytes.len() => bytes[place] = damaging_byte(random),
        1 if place < bytes.len() => {
            bytes.remove(place);
        }
        _ => bytes.insert(place, damaging_byte(random)),
    }
    bytes
}

fn put_digits(random: &mut Random, bytes: &mut Vec<u8>, count: u64) {
    for _ in 0..count {
        bytes.push(b'0' + random.below(10) as u8);
    }
}

/// Just `count` digits.
pub fn digits(random: &mut Random, count: u64) -> Vec<u8> {
    let mut bytes = Vec::new();
    put_digits(random, &mut bytes, count);
    bytes
}

/// A Number(precision, places), sometimes one digit too long on either side of the point. One without places seldom has a point.
pub fn amount(random: &mut Random, precision: u64, places: u64) -> Vec<u8> {
    let whole = precision.saturating_sub(places);
    let mut bytes = Vec::new();
    if random.below(3) == 0 {
        bytes.push(b'-');
    }
    let count = random.below(whole + 2);
    put_digits(random, &mut bytes, count);
    if random.below(3) < if places == 0 { 1 } else { 2 } {
        bytes.push(b'.');
        let count = random.below(places + 2);
        put_digits(random, &mut bytes, count);
    }
    if random.below(8) == 0 {
        bytes.iter_mut().filter(|byte| byte.is_ascii_digit()).for_each(|byte| *byte = b'0');
    }
    bytes
}

/// Up to 20 bytes of any kind.
pub fn noise(random: &mut Random) -> Vec<u8> {
    let count = random.below(21);
    (0..count).map(|_| damaging_byte(random)).collect()
}
