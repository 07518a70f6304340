//! DES (FIPS 46-3), enciphering only, and the keys of RFC 2759.
//!
//! Bits are numbered as in FIPS 46-3, 1 being the leftmost. Every round looks up eight tables that
//! join an S-box with the permutation P; the key schedule looks up tables of PC-1 and PC-2. All
//! tables are computed from the printed ones when the program is compiled.

/// The eight S-boxes of FIPS 46-3: four rows of sixteen numbers each.
#[rustfmt::skip]
pub const S_BOXES: [u8; 512] = [
    14, 4, 13, 1, 2, 15, 11, 8, 3, 10, 6, 12, 5, 9, 0, 7,
    0, 15, 7, 4, 14, 2, 13, 1, 10, 6, 12, 11, 9, 5, 3, 8,
    4, 1, 14, 8, 13, 6, 2, 11, 15, 12, 9, 7, 3, 10, 5, 0,
    15, 12, 8, 2, 4, 9, 1, 7, 5, 11, 3, 14, 10, 0, 6, 13,

    15, 1, 8, 14, 6, 11, 3, 4, 9, 7, 2, 13, 12, 0, 5, 10,
    3, 13, 4, 7, 15, 2, 8, 14, 12, 0, 1, 10, 6, 9, 11, 5,
    0, 14, 7, 11, 10, 4, 13, 1, 5, 8, 12, 6, 9, 3, 2, 15,
    13, 8, 10, 1, 3, 15, 4, 2, 11, 6, 7, 12, 0, 5, 14, 9,

    10, 0, 9, 14, 6, 3, 15, 5, 1, 13, 12, 7, 11, 4, 2, 8,
    13, 7, 0, 9, 3, 4, 6, 10, 2, 8, 5, 14, 12, 11, 15, 1,
    13, 6, 4, 9, 8, 15, 3, 0, 11, 1, 2, 12, 5, 10, 14, 7,
    1, 10, 13, 0, 6, 9, 8, 7, 4, 15, 14, 3, 11, 5, 2, 12,

    7, 13, 14, 3, 0, 6, 9, 10, 1, 2, 8, 5, 11, 12, 4, 15,
    13, 8, 11, 5, 6, 15, 0, 3, 4, 7, 2, 12, 1, 10, 14, 9,
    10, 6, 9, 0, 12, 11, 7, 13, 15, 1, 3, 14, 5, 2, 8, 4,
    3, 15, 0, 6, 10, 1, 13, 8, 9, 4, 5, 11, 12, 7, 2, 14,

    2, 12, 4, 1, 7, 10, 11, 6, 8, 5, 3, 15, 13, 0, 14, 9,
    14, 11, 2, 12, 4, 7, 13, 1, 5, 0, 15, 10, 3, 9, 8, 6,
    4, 2, 1, 11, 10, 13, 7, 8, 15, 9, 12, 5, 6, 3, 0, 14,
    11, 8, 12, 7, 1, 14, 2, 13, 6, 15, 0, 9, 10, 4, 5, 3,

    12, 1, 10, 15, 9, 2, 6, 8, 0, 13, 3, 4, 14, 7, 5, 11,
    10, 15, 4, 2, 7, 12, 9, 5, 6, 1, 13, 14, 0, 11, 3, 8,
    9, 14, 15, 5, 2, 8, 12, 3, 7, 0, 4, 10, 1, 13, 11, 6,
    4, 3, 2, 12, 9, 5, 15, 10, 11, 14, 1, 7, 6, 0, 8, 13,

    4, 11, 2, 14, 15, 0, 8, 13, 3, 12, 9, 7, 5, 10, 6, 1,
    13, 0, 11, 7, 4, 9, 1, 10, 14, 3, 5, 12, 2, 15, 8, 6,
    1, 4, 11, 13, 12, 3, 7, 14, 10, 15, 6, 8, 0, 5, 9, 2,
    6, 11, 13, 8, 1, 4, 10, 7, 9, 5, 0, 15, 14, 2, 3, 12,

    13, 2, 8, 4, 6, 15, 11, 1, 10, 9, 3, 14, 5, 0, 12, 7,
    1, 15, 13, 8, 10, 3, 7, 4, 12, 5, 6, 11, 0, 14, 9, 2,
    7, 11, 4, 1, 9, 12, 14, 2, 0, 6, 10, 13, 15, 3, 5, 8,
    2, 1, 14, 7, 4, 10, 8, 13, 15, 12, 9, 0, 3, 5, 6, 11,
];

#[rustfmt::skip]
const P: [u8; 32] = [
    16, 7, 20, 21, 29, 12, 28, 17, 1, 15, 23, 26, 5, 18, 31, 10,
    2, 8, 24, 14, 32, 27, 3, 9, 19, 13, 30, 6, 22, 11, 4, 25,
];

#[rustfmt::skip]
const PC1: [u8; 56] = [
    57, 49, 41, 33, 25, 17, 9, 1, 58, 50, 42, 34, 26, 18,
    10, 2, 59, 51, 43, 35, 27, 19, 11, 3, 60, 52, 44, 36,
    63, 55, 47, 39, 31, 23, 15, 7, 62, 54, 46, 38, 30, 22,
    14, 6, 61, 53, 45, 37, 29, 21, 13, 5, 28, 20, 12, 4,
];

#[rustfmt::skip]
const PC2: [u8; 48] = [
    14, 17, 11, 24, 1, 5, 3, 28, 15, 6, 21, 10,
    23, 19, 12, 4, 26, 8, 16, 7, 27, 20, 13, 2,
    41, 52, 31, 37, 47, 55, 30, 40, 51, 45, 33, 48,
    44, 49, 39, 56, 34, 53, 46, 42, 50, 36, 29, 32,
];

const SHIFTS: [u32; 16] = [1, 1, 2, 2, 2, 2, 2, 2, 1, 2, 2, 2, 2, 2, 2, 1];

/// S-box k and then P, for each six-bit input of S-box k.
static SP: [[u32; 64]; 8] = s_boxes_then_p();
/// PC-1 by octets of the key, without their parity bits.
static PC1_BY_OCTET: [[u64; 128]; 8] = pc1_by_octet();
/// PC-2 by sevens of C and D. A round key comes as two words, see [`RoundKey`].
static PC2_BY_SEVEN: [[u64; 128]; 8] = pc2_by_seven();

/// The six-bit inputs of S-boxes 1, 3, 5, 7 at bits 26, 18, 10, 2 of the first word, and those of
/// S-boxes 2, 4, 6, 8 at the same bits of the second.
type RoundKey = [u32; 2];

/// Enciphers a block. The low bit of each key octet is its parity and has no influence.
pub fn encrypt(key: &[u8; 8], block: &[u8; 8]) -> [u8; 8] {
    let (mut left, mut right) = initial_permutation(u64::from_be_bytes(*block));
    for round_key in round_keys(key) {
        (left, right) = (right, left ^ cipher_function(right, round_key));
    }
    // The last round doesn't change sides.
    final_permutation(right, left).to_be_bytes()
}

/// The eight octets of a 56-bit key: seven bits each, and the low bit set so that the octet has an
/// odd number of ones (document 01, "Response arithmetic").
pub fn with_parity(key: &[u8; 7]) -> [u8; 8] {
    let bits = key
        .iter()
        .fold(0, |bits, &octet| bits << 8 | u64::from(octet));
    std::array::from_fn(|i| {
        let seven = (bits >> (49 - 7 * i)) as u8 & 0x7f;
        seven << 1 | (seven.count_ones() as u8 & 1 ^ 1)
    })
}

fn round_keys(key: &[u8; 8]) -> [RoundKey; 16] {
    const HALF: u64 = (1 << 28) - 1;
    let mut bits = 0;
    for (table, octet) in PC1_BY_OCTET.iter().zip(key) {
        bits |= table[usize::from(octet >> 1)];
    }
    let (mut c, mut d) = (bits >> 28, bits & HALF);
    SHIFTS.map(|shift| {
        c = (c << shift | c >> (28 - shift)) & HALF;
        d = (d << shift | d >> (28 - shift)) & HALF;
        round_key(c << 28 | d)
    })
}

fn round_key(bits: u64) -> RoundKey {
    let mut words = 0;
    for (i, table) in PC2_BY_SEVEN.iter().enumerate() {
        words |= table[(bits >> (49 - 7 * i)) as usize & 0x7f];
    }
    [(words >> 32) as u32, words as u32]
}

/// f(R, K): the bit selection E is the overlap of the six-bit windows of R.
fn cipher_function(right: u32, key: RoundKey) -> u32 {
    let odd = right.rotate_right(1) ^ key[0];
    let even = right.rotate_left(3) ^ key[1];
    let look = |s_box: usize, word: u32, shift: u32| SP[s_box][(word >> shift) as usize & 0x3f];
    look(0, odd, 26)
        | look(2, odd, 18)
        | look(4, odd, 10)
        | look(6, odd, 2)
        | look(1, even, 26)
        | look(3, even, 18)
        | look(5, even, 10)
        | look(7, even, 2)
}

/// Exchanges the bits of `a` under `mask << shift` with those of `b` under `mask`.
fn exchange(a: &mut u32, b: &mut u32, shift: u32, mask: u32) {
    let differing = (*a >> shift ^ *b) & mask;
    *b ^= differing;
    *a ^= differing << shift;
}

/// IP, as the well-known five exchanges.
fn initial_permutation(block: u64) -> (u32, u32) {
    let (mut left, mut right) = ((block >> 32) as u32, block as u32);
    exchange(&mut left, &mut right, 4, 0x0f0f0f0f);
    exchange(&mut left, &mut right, 16, 0x0000ffff);
    exchange(&mut right, &mut left, 2, 0x33333333);
    exchange(&mut right, &mut left, 8, 0x00ff00ff);
    exchange(&mut left, &mut right, 1, 0x55555555);
    (left, right)
}

/// The inverse of IP: the same exchanges backwards.
fn final_permutation(mut left: u32, mut right: u32) -> u64 {
    exchange(&mut left, &mut right, 1, 0x55555555);
    exchange(&mut right, &mut left, 8, 0x00ff00ff);
    exchange(&mut right, &mut left, 2, 0x33333333);
    exchange(&mut left, &mut right, 16, 0x0000ffff);
    exchange(&mut left, &mut right, 4, 0x0f0f0f0f);
    u64::from(left) << 32 | u64::from(right)
}

const fn s_boxes_then_p() -> [[u32; 64]; 8] {
    let mut tables = [[0; 64]; 8];
    let mut i = 0;
    while i < 512 {
        let (s_box, input) = (i / 64, i % 64);
        let row = (input >> 4 & 2) | (input & 1);
        let number = S_BOXES[s_box * 64 + row * 16 + (input >> 1 & 15)] as u32;
        tables[s_box][input] = p(number << (28 - 4 * s_box));
        i += 1;
    }
    tables
}

const fn p(word: u32) -> u32 {
    let mut out = 0;
    let mut i = 0;
    while i < 32 {
        out = out << 1 | (word >> (32 - P[i]) & 1);
        i += 1;
    }
    out
}

const fn pc1_by_octet() -> [[u64; 128]; 8] {
    let mut tables = [[0; 128]; 8];
    let mut i = 0;
    while i < 56 {
        let from = PC1[i] as usize - 1;
        spread(&mut tables[from / 8], 6 - from % 8, 55 - i);
        i += 1;
    }
    tables
}

const fn pc2_by_seven() -> [[u64; 128]; 8] {
    let mut tables = [[0; 128]; 8];
    let mut i = 0;
    while i < 48 {
        let from = PC2[i] as usize - 1;
        let (s_box, bit) = (i / 6, i % 6);
        let word = if s_box % 2 == 0 { 32 } else { 0 };
        spread(
            &mut tables[from / 7],
            6 - from % 7,
            word + 31 - 8 * (s_box / 2) - bit,
        );
        i += 1;
    }
    tables
}

/// Lets bit `from` of the index become bit `to` of the entry (bits counted from the low end).
const fn spread(table: &mut [u64; 128], from: usize, to: usize) {
    let mut index = 0;
    while index < 128 {
        table[index] |= (index as u64 >> from & 1) << to;
        index += 1;
    }
}

#[cfg(test)]
mod tests {
    use super::*;

    #[test]
    fn every_row_of_the_s_boxes_holds_each_number_once() {
        for row in S_BOXES.chunks(16) {
            let seen = row.iter().fold(0u32, |seen, &number| seen | 1 << number);
            assert_eq!(seen, 0xffff);
        }
    }

    #[test]
    fn exchanges_are_the_printed_initial_permutation() {
        for bit in 0..64 {
            let block = 1u64 << (63 - bit);
            let (left, right) = initial_permutation(block);
            // IP: output bit 8 r + c (from 0) is input bit 58 - 8 c + 2 r, or 57 - 8 c + 2 (r - 4).
            let mut expected = 0u64;
            for out in 0..64 {
                let (row, column) = (out / 8, out % 8);
                let first = if row < 4 {
                    58 + 2 * row
                } else {
                    57 + 2 * (row - 4)
                };
                if first - 8 * column - 1 == bit {
                    expected |= 1 << (63 - out);
                }
            }
            assert_eq!(u64::from(left) << 32 | u64::from(right), expected);
            assert_eq!(final_permutation(left, right), block);
        }
    }

    #[test]
    fn parity_bits_have_no_influence() {
        let block = *b"FRZ FRZ ";
        let key = [0x13, 0x34, 0x57, 0x79, 0x9b, 0xbc, 0xdf, 0xf1];
        assert_eq!(
            encrypt(&key, &block),
            encrypt(&key.map(|octet| octet ^ 1), &block)
        );
    }

    #[test]
    fn parity_is_odd_and_keeps_the_bits() {
        for i in 0..56 {
            let mut key = [0; 7];
            key[i / 8] = 0x80 >> (i % 8);
            let wide = with_parity(&key);
            assert!(wide.iter().all(|octet| octet.count_ones() % 2 == 1));
            let mut expected = [1; 8];
            expected[i / 7] = 0x80 >> (i % 7);
            assert_eq!(wide, expected);
        }
    }
}
