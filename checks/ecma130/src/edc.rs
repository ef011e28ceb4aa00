//! The error detection code, three ways: by the bit, by a byte table as
//! existing libraries have it, and by eight bytes at a time.

/// The generator without its x^32 term, bits reversed because a byte's
/// lowest bit goes first.
const GENERATOR: u32 = reversed_product(0x1_8005, 0x1_0007);

static TABLES: [[u32; 256]; 8] = make_tables();

/// Multiplies two polynomials over GF(2), as the standard writes the
/// generator: (x^16+x^15+x^2+1)(x^16+x^2+x+1).
const fn reversed_product(a: u64, b: u64) -> u32 {
    let mut product = 0u64;
    let mut bit = 0;
    while bit <= 16 {
        if b >> bit & 1 == 1 {
            product ^= a << bit;
        }
        bit += 1;
    }
    (product as u32).reverse_bits()
}

const fn shift_bit(register: u32) -> u32 {
    if register & 1 == 1 {
        register >> 1 ^ GENERATOR
    } else {
        register >> 1
    }
}

const fn shift_byte(mut register: u32) -> u32 {
    let mut bit = 0;
    while bit < 8 {
        register = shift_bit(register);
        bit += 1;
    }
    register
}

/// Table k holds what a byte has become when k more zero bytes followed it.
const fn make_tables() -> [[u32; 256]; 8] {
    let mut tables = [[0; 256]; 8];
    let mut byte = 0;
    while byte < 256 {
        let mut register = byte as u32;
        let mut k = 0;
        while k < 8 {
            register = shift_byte(register);
            tables[k][byte] = register;
            k += 1;
        }
        byte += 1;
    }
    tables
}

pub fn edc_bitwise(bytes: &[u8]) -> u32 {
    bytes.iter().fold(0, |register, &byte| shift_byte(register ^ byte as u32))
}

pub fn edc_by_table(bytes: &[u8]) -> u32 {
    advance_by_table(0, bytes)
}

fn advance_by_table(register: u32, bytes: &[u8]) -> u32 {
    bytes.iter().fold(register, |register, &byte| register >> 8 ^ TABLES[0][(register as u8 ^ byte) as usize])
}

pub fn edc_sliced(bytes: &[u8]) -> u32 {
    let chunks = bytes.chunks_exact(8);
    let rest = chunks.remainder();
    let register = chunks.fold(0, advance_eight);
    advance_by_table(register, rest)
}

/// The last four bytes do not wait for the register, so they are looked up apart.
fn advance_eight(register: u32, chunk: &[u8]) -> u32 {
    let first = u32::from_le_bytes([chunk[0], chunk[1], chunk[2], chunk[3]]) ^ register;
    let second = (TABLES[3][chunk[4] as usize] ^ TABLES[2][chunk[5] as usize])
        ^ (TABLES[1][chunk[6] as usize] ^ TABLES[0][chunk[7] as usize]);
    let low = TABLES[7][(first & 0xFF) as usize] ^ TABLES[6][(first >> 8 & 0xFF) as usize];
    let high = TABLES[5][(first >> 16 & 0xFF) as usize] ^ TABLES[4][(first >> 24) as usize];
    second ^ (low ^ high)
}

#[cfg(test)]
mod tests {
    use super::*;

    #[test]
    fn generator_is_the_published_one() {
        assert_eq!(GENERATOR.reverse_bits(), 0x8001_801B);
    }

    #[test]
    fn published_check_value() {
        assert_eq!(edc_bitwise(b"123456789"), 0x6EC2_EDC4);
        assert_eq!(edc_by_table(b"123456789"), 0x6EC2_EDC4);
        assert_eq!(edc_sliced(b"123456789"), 0x6EC2_EDC4);
    }

    #[test]
    fn three_ways_agree_on_every_length() {
        let mut state = 1u32;
        let bytes: Vec<u8> = (0..2400)
            .map(|_| {
                state = state.wrapping_mul(1_664_525).wrapping_add(1_013_904_223);
                (state >> 24) as u8
            })
            .collect();
        for length in 0..bytes.len() {
            let part = &bytes[..length];
            let expected = edc_bitwise(part);
            assert_eq!(edc_by_table(part), expected);
            assert_eq!(edc_sliced(part), expected);
        }
    }

    #[test]
    fn code_over_its_own_code_is_zero() {
        let mut bytes = b"any bytes at all".to_vec();
        let code = edc_bitwise(&bytes);
        bytes.extend_from_slice(&code.to_le_bytes());
        assert_eq!(edc_sliced(&bytes), 0);
    }
}
