//! Little-endian numbers in byte slices.

/// The number that the bytes spell, lowest byte first. At most eight bytes.
pub fn number(bytes: &[u8]) -> u64 {
    bytes
        .iter()
        .rev()
        .fold(0, |sum, &byte| sum << 8 | u64::from(byte))
}

/// The two-byte number at a place that the caller knows to exist.
pub fn two(bytes: &[u8], at: usize) -> u16 {
    number(&bytes[at..at + 2]) as u16
}

/// The four-byte number at a place that the caller knows to exist.
pub fn four(bytes: &[u8], at: usize) -> u32 {
    number(&bytes[at..at + 4]) as u32
}

/// The eight-byte number at a place that the caller knows to exist.
pub fn eight(bytes: &[u8], at: usize) -> u64 {
    number(&bytes[at..at + 8])
}

#[cfg(test)]
mod tests {
    use super::*;

    #[test]
    fn lowest_byte_comes_first() {
        let bytes = [1, 2, 3, 4, 5, 6, 7, 0xf8, 9];
        assert_eq!(two(&bytes, 0), 0x0201);
        assert_eq!(four(&bytes, 1), 0x0504_0302);
        assert_eq!(eight(&bytes, 0), 0xf807_0605_0403_0201);
        assert_eq!(number(&[]), 0);
    }
}
