//! Bits in the order sent: every byte goes out from its low bit up.

/// The bits of `bytes` in the order sent.
pub fn of_bytes(bytes: &[u8]) -> Vec<bool> {
    let of_byte = |byte: &u8| [0, 1, 2, 3, 4, 5, 6, 7].map(|power| byte >> power & 1 == 1);
    bytes.iter().flat_map(of_byte).collect()
}

/// Packs bits in the order sent into bytes; spare high bits are zero.
pub fn to_bytes(bits: &[bool]) -> Vec<u8> {
    let to_byte = |chunk: &[bool]| {
        let value = |(power, bit): (usize, &bool)| u8::from(*bit) << power;
        chunk.iter().enumerate().map(value).sum()
    };
    bits.chunks(8).map(to_byte).collect()
}

/// Flips the bit of `bytes` that is sent as number `place`.
pub fn flip(bytes: &mut [u8], place: usize) {
    bytes[place / 8] ^= 1 << (place % 8);
}
