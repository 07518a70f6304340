//! MD4 (RFC 1320) and SHA-1 (FIPS 180-1). Both cut the message in blocks of 64 octets after the
//! same padding; they differ in octet order and in what they do with a block.

use crate::number::BAD_ARGUMENT;

/// Digest input is 0 to 65,536 octets (document 01, "Sizes").
pub const MAX_INPUT: usize = 65_536;

/// The MD4 digest, or 23 for a message over 65,536 octets.
pub fn md4(message: &[u8]) -> Result<[u8; 16], u8> {
    check_size(message)?;
    Ok(md4_of(&[message]))
}

/// The SHA-1 digest, or 23 for a message over 65,536 octets.
pub fn sha1(message: &[u8]) -> Result<[u8; 20], u8> {
    check_size(message)?;
    Ok(sha1_of(&[message]))
}

fn check_size(message: &[u8]) -> Result<(), u8> {
    if message.len() > MAX_INPUT {
        return Err(BAD_ARGUMENT);
    }
    Ok(())
}

/// MD4 over the parts end to end.
pub(crate) fn md4_of(parts: &[&[u8]]) -> [u8; 16] {
    let words = Stream::digest(Md4([0x67452301, 0xefcdab89, 0x98badcfe, 0x10325476]), parts).0;
    let mut out = [0; 16];
    for (octets, word) in out.chunks_exact_mut(4).zip(words) {
        octets.copy_from_slice(&word.to_le_bytes());
    }
    out
}

/// SHA-1 over the parts end to end.
pub(crate) fn sha1_of(parts: &[&[u8]]) -> [u8; 20] {
    let start = [0x67452301, 0xefcdab89, 0x98badcfe, 0x10325476, 0xc3d2e1f0];
    let words = Stream::digest(Sha1(start), parts).0;
    let mut out = [0; 20];
    for (octets, word) in out.chunks_exact_mut(4).zip(words) {
        octets.copy_from_slice(&word.to_be_bytes());
    }
    out
}

const BLOCK: usize = 64;
type Block = [u8; BLOCK];

/// What MD4 and SHA-1 do not share.
trait Digest {
    fn compress(&mut self, block: &Block);
    /// The message length in bits as the last eight octets of the padding.
    fn length_octets(bits: u64) -> [u8; 8];
}

/// A message on its way through a digest, with the octets that don't fill a block yet.
struct Stream<D> {
    digest: D,
    pending: Block,
    filled: usize,
    total: u64,
}

impl<D: Digest> Stream<D> {
    fn digest(digest: D, parts: &[&[u8]]) -> D {
        let mut stream = Stream {
            digest,
            pending: [0; BLOCK],
            filled: 0,
            total: 0,
        };
        for part in parts {
            stream.take(part);
        }
        stream.finish()
    }

    fn take(&mut self, mut part: &[u8]) {
        self.total += part.len() as u64;
        if self.filled > 0 {
            let (head, rest) = part.split_at(part.len().min(BLOCK - self.filled));
            self.pending[self.filled..][..head.len()].copy_from_slice(head);
            self.filled += head.len();
            if self.filled < BLOCK {
                return;
            }
            self.digest.compress(&self.pending);
            part = rest;
        }
        let (blocks, rest) = part.as_chunks::<BLOCK>();
        for block in blocks {
            self.digest.compress(block);
        }
        self.pending[..rest.len()].copy_from_slice(rest);
        self.filled = rest.len();
    }

    /// A one bit, zeros up to 56 octets modulo 64, and the length.
    fn finish(mut self) -> D {
        self.pending[self.filled] = 0x80;
        self.pending[self.filled + 1..].fill(0);
        if self.filled >= BLOCK - 8 {
            self.digest.compress(&self.pending);
            self.pending.fill(0);
        }
        self.pending[BLOCK - 8..].copy_from_slice(&D::length_octets(self.total * 8));
        self.digest.compress(&self.pending);
        self.digest
    }
}

/// The sixteen words of a block, in the octet order given.
fn words(block: &Block, word: fn([u8; 4]) -> u32) -> [u32; 16] {
    let (octets, _) = block.as_chunks::<4>();
    std::array::from_fn(|i| word(octets[i]))
}

struct Md4([u32; 4]);

impl Digest for Md4 {
    fn compress(&mut self, block: &Block) {
        let x = words(block, u32::from_le_bytes);
        let mut state = self.0;
        for i in [0, 4, 8, 12] {
            let four = [x[i], x[i + 1], x[i + 2], x[i + 3]];
            state = md4_steps(state, four, [3, 7, 11, 19], 0, choose);
        }
        for i in [0, 1, 2, 3] {
            let four = [x[i], x[i + 4], x[i + 8], x[i + 12]];
            state = md4_steps(state, four, [3, 5, 9, 13], 0x5a827999, majority);
        }
        for i in [0, 2, 1, 3] {
            let four = [x[i], x[i + 8], x[i + 4], x[i + 12]];
            state = md4_steps(state, four, [3, 9, 11, 15], 0x6ed9eba1, parity);
        }
        add(&mut self.0, state);
    }

    fn length_octets(bits: u64) -> [u8; 8] {
        bits.to_le_bytes()
    }
}

/// Four steps of MD4, after which the four words stand in their places again.
#[inline(always)]
fn md4_steps(
    [a, b, c, d]: [u32; 4],
    x: [u32; 4],
    shifts: [u32; 4],
    constant: u32,
    mix: impl Fn(u32, u32, u32) -> u32,
) -> [u32; 4] {
    let step = |word: u32, mixed: u32, i: usize| {
        let sum = word
            .wrapping_add(mixed)
            .wrapping_add(x[i])
            .wrapping_add(constant);
        sum.rotate_left(shifts[i])
    };
    let a = step(a, mix(b, c, d), 0);
    let d = step(d, mix(a, b, c), 1);
    let c = step(c, mix(d, a, b), 2);
    let b = step(b, mix(c, d, a), 3);
    [a, b, c, d]
}

struct Sha1([u32; 5]);

impl Digest for Sha1 {
    fn compress(&mut self, block: &Block) {
        let mut w = [0; 80];
        w[..16].copy_from_slice(&words(block, u32::from_be_bytes));
        for t in 16..80 {
            w[t] = (w[t - 3] ^ w[t - 8] ^ w[t - 14] ^ w[t - 16]).rotate_left(1);
        }
        let (fives, _) = w.as_chunks::<5>();
        let mut state = self.0;
        for five in &fives[..4] {
            state = sha1_steps(state, five, 0x5a827999, choose);
        }
        for five in &fives[4..8] {
            state = sha1_steps(state, five, 0x6ed9eba1, parity);
        }
        for five in &fives[8..12] {
            state = sha1_steps(state, five, 0x8f1bbcdc, majority);
        }
        for five in &fives[12..] {
            state = sha1_steps(state, five, 0xca62c1d6, parity);
        }
        add(&mut self.0, state);
    }

    fn length_octets(bits: u64) -> [u8; 8] {
        bits.to_be_bytes()
    }
}

/// Five steps of SHA-1, after which the five words stand in their places again.
#[inline(always)]
fn sha1_steps(
    [a, b, c, d, e]: [u32; 5],
    w: &[u32; 5],
    constant: u32,
    mix: impl Fn(u32, u32, u32) -> u32,
) -> [u32; 5] {
    let step = |turned: u32, mixed: u32, word: u32, i: usize| {
        let sum = w[i]
            .wrapping_add(constant)
            .wrapping_add(word)
            .wrapping_add(mixed);
        sum.wrapping_add(turned.rotate_left(5))
    };
    let (e, b) = (step(a, mix(b, c, d), e, 0), b.rotate_left(30));
    let (d, a) = (step(e, mix(a, b, c), d, 1), a.rotate_left(30));
    let (c, e) = (step(d, mix(e, a, b), c, 2), e.rotate_left(30));
    let (b, d) = (step(c, mix(d, e, a), b, 3), d.rotate_left(30));
    let (a, c) = (step(b, mix(c, d, e), a, 4), c.rotate_left(30));
    [a, b, c, d, e]
}

/// (x AND y) OR (NOT x AND z).
fn choose(x: u32, y: u32, z: u32) -> u32 {
    z ^ (x & (y ^ z))
}

/// (x AND y) OR (x AND z) OR (y AND z).
fn majority(x: u32, y: u32, z: u32) -> u32 {
    (x & y) | (z & (x | y))
}

fn parity(x: u32, y: u32, z: u32) -> u32 {
    x ^ y ^ z
}

fn add<const N: usize>(state: &mut [u32; N], words: [u32; N]) {
    for (sum, word) in state.iter_mut().zip(words) {
        *sum = sum.wrapping_add(word);
    }
}
