//! CRC-32 as zlib has it, which notices every single flipped bit.

/// `EFFECTS[k][byte]`: what a byte does to a checksum `k` bytes after it.
static EFFECTS: [[u32; 256]; 4] = effects();

const fn effect_of(byte: u32) -> u32 {
    let mut effect = byte;
    let mut bit = 0;
    while bit < 8 {
        effect = effect >> 1 ^ if effect & 1 == 1 { 0xEDB8_8320 } else { 0 };
        bit += 1;
    }
    effect
}

const fn effects() -> [[u32; 256]; 4] {
    let mut effects = [[0; 256]; 4];
    let mut byte = 0;
    while byte < 256 {
        let mut effect = byte;
        let mut later = 0;
        while later < 4 {
            effect = effect >> 8 ^ effect_of(effect & 0xFF);
            effects[later][byte as usize] = effect;
            later += 1;
        }
        byte += 1;
    }
    effects
}

fn effect(later: usize, byte: u8) -> u32 {
    EFFECTS[later][usize::from(byte)]
}

fn after_four(sum: u32, four: &[u8]) -> u32 {
    let [first, second, third, fourth] = sum.to_le_bytes();
    effect(3, first ^ four[0]) ^ effect(2, second ^ four[1]) ^ effect(1, third ^ four[2]) ^ effect(0, fourth ^ four[3])
}

fn after_one(sum: u32, byte: u8) -> u32 {
    sum >> 8 ^ effect(0, sum.to_le_bytes()[0] ^ byte)
}

/// The CRC-32 of some bytes.
pub fn crc32(bytes: &[u8]) -> u32 {
    let fours = bytes.chunks_exact(4);
    let rest = fours.remainder();
    !rest.iter().copied().fold(fours.fold(u32::MAX, after_four), after_one)
}

#[cfg(test)]
mod tests {
    use super::crc32;

    #[test]
    fn it_is_the_one_of_zlib() {
        assert_eq!(crc32(b""), 0);
        assert_eq!(crc32(b"123456789"), 0xCBF4_3926);
        assert_eq!(crc32(b"The quick brown fox jumps over the lazy dog"), 0x414F_A339);
    }
}
