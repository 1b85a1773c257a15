//! Words: 32 bits, unsigned, little-endian, at any byte offset.
//! They are read as `u64`, so that no sum or product of them can wrap.

pub fn word(bytes: &[u8], offset: usize) -> u64 {
    let four: [u8; 4] = bytes[offset..offset + 4].try_into().expect("four bytes");
    u64::from(u32::from_le_bytes(four))
}

pub fn put_word(bytes: &mut [u8], offset: usize, value: u64) {
    bytes[offset..offset + 4].copy_from_slice(&word_bytes(value));
}

pub fn bytes_of(values: &[u64]) -> Vec<u8> {
    values.iter().flat_map(|value| word_bytes(*value)).collect()
}

fn word_bytes(value: u64) -> [u8; 4] {
    u32::try_from(value).expect("a word").to_le_bytes()
}
