//! Reading numbers and arrays at a place in a byte string: "All numbers of ours are little-endian." Where the string has ended there are zeros, so
//! that every place can be read; the calls judge lengths before they read.

/// The `N` bytes that start at `at`.
pub fn array_at<const N: usize>(bytes: &[u8], at: usize) -> [u8; N] {
    let rest = bytes.get(at..).unwrap_or(&[]);
    std::array::from_fn(|i| rest.get(i).copied().unwrap_or(0))
}

/// The 2-byte number at `at`.
pub fn u16_at(bytes: &[u8], at: usize) -> u16 {
    u16::from_le_bytes(array_at(bytes, at))
}

/// The 4-byte number at `at`.
pub fn u32_at(bytes: &[u8], at: usize) -> u32 {
    u32::from_le_bytes(array_at(bytes, at))
}

/// The 8-byte number at `at`.
pub fn u64_at(bytes: &[u8], at: usize) -> u64 {
    u64::from_le_bytes(array_at(bytes, at))
}
