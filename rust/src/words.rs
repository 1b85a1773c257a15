//! Words of 32 bits in bytes, little-endian.

/// The first `COUNT` words of bytes that hold so many.
pub(crate) fn words_in<const COUNT: usize>(bytes: &[u8]) -> [u32; COUNT] {
    std::array::from_fn(|i| {
        let word = &bytes[4 * i..][..4];
        u32::from_le_bytes([word[0], word[1], word[2], word[3]])
    })
}

pub(crate) fn bytes_of(words: impl IntoIterator<Item = u32>) -> impl Iterator<Item = u8> {
    words.into_iter().flat_map(u32::to_le_bytes)
}
