//! Numbers as words: what the lists, the dumps and the program write.

/// The bits of a double, all NaN alike.
pub fn bits(x: f64) -> u64 {
    if x.is_nan() {
        0x7ff8_0000_0000_0000
    } else {
        x.to_bits()
    }
}

/// One record of an answer list: 16-digit words, spaced, on a line.
pub fn line(words: &[u64]) -> String {
    let hex: Vec<String> = words.iter().map(|word| format!("{word:016x}")).collect();
    hex.join(" ") + "\n"
}

/// Bytes as words: their number, then eight to a word, little-endian, zero padded.
pub fn packed(bytes: &[u8]) -> Vec<u64> {
    let mut words = vec![bytes.len() as u64];
    for chunk in bytes.chunks(8) {
        let mut word = [0; 8];
        word[..chunk.len()].copy_from_slice(chunk);
        words.push(u64::from_le_bytes(word));
    }
    words
}
