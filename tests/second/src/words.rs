//! Words and payloads in byte slices.

/// "All words are 32 bits, little endian."
pub fn word(bytes: &[u8], at: usize) -> u32 {
    let mut four = [0; 4];
    four.copy_from_slice(&bytes[at..at + 4]);
    u32::from_le_bytes(four)
}

/// "8 payload bytes", "payloads (8 bytes a slot, little endian ...)".
pub fn payload(bytes: &[u8], at: usize) -> u64 {
    let mut eight = [0; 8];
    eight.copy_from_slice(&bytes[at..at + 8]);
    u64::from_le_bytes(eight)
}
