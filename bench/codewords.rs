//! Codewords in plain Rust, shared by the benchmarks: check bits by three byte tables.

pub const SYNC: u32 = 0x7CD2_15D8;

pub const IDLE: u32 = 0x7A89_C197;

/// The entry of a syndrome that no error of at most two bits has.
pub const FAR: u32 = u32::MAX;

/// The check bits and the parity bit for data bits, by division.
const fn divided(data: u32) -> u32 {
    let mut rest = data << 10;
    let mut place = 31;
    while place > 10 {
        place -= 1;
        if rest >> place & 1 == 1 {
            rest ^= 0x769 << (place - 10);
        }
    }
    rest << 1 | (data.count_ones() + rest.count_ones()) & 1
}

const fn checks_from(shift: u32) -> [u32; 128] {
    let mut table = [0; 128];
    let mut i = 0;
    while i < 128 {
        table[i] = divided((i as u32) << shift);
        i += 1;
    }
    table
}

static LOW: [u32; 128] = checks_from(0);
static MIDDLE: [u32; 128] = checks_from(7);
static HIGH: [u32; 128] = checks_from(14);

#[inline(always)]
pub fn check_bits(data: u32) -> u32 {
    LOW[(data % 128) as usize] ^ MIDDLE[(data / 128 % 128) as usize] ^ HIGH[(data / 16384) as usize]
}

#[inline(always)]
pub fn syndrome(number: u32) -> u32 {
    number % 2048 ^ check_bits(number / 2048)
}

/// The error of at most two bits for each syndrome, or `FAR`.
pub fn errors() -> [u32; 2048] {
    let mut table = [FAR; 2048];
    table[0] = 0;
    for i in 0..32 {
        for j in 0..=i {
            let error = 1u32 << i | 1u32 << j;
            table[syndrome(error) as usize] = error;
        }
    }
    table
}
