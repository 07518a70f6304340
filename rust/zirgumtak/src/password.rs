//! What is kept of a password.

use core::fmt;
use core::hint::black_box;

use crate::answer::{done_of, Refusal};
use crate::wiped::Wiped;
use crate::{raw, Octets16};

/// What is kept of a password: MD4 of its UTF-16 units. Whoever has it can log in.
///
/// It is wiped when it is dropped, and compared without an early end.
#[derive(Clone)]
pub struct PasswordHash {
    octets: Wiped<16>,
}

impl PasswordHash {
    /// The hash of a password; [`Refusal::BadArgument`] over 256 UTF-16 units.
    pub fn of(password: &str) -> Result<PasswordHash, Refusal> {
        hash_units(password.encode_utf16())
    }

    /// The hash of UTF-16 units, not necessarily of a text; [`Refusal::BadArgument`] over 256.
    pub fn of_units(units: &[u16]) -> Result<PasswordHash, Refusal> {
        hash_units(units.iter().copied())
    }

    /// A stored hash.
    pub const fn from_octets(octets: Octets16) -> PasswordHash {
        PasswordHash {
            octets: Wiped(octets),
        }
    }

    /// The hash, to be stored where secrets are kept.
    pub const fn octets(&self) -> &Octets16 {
        &self.octets.0
    }
}

/// All octets are looked at, wherever two hashes differ.
impl PartialEq for PasswordHash {
    fn eq(&self, other: &PasswordHash) -> bool {
        let pairs = self.octets().iter().zip(other.octets());
        // Nothing is known of what comes out of a `black_box`, so that no step can be left out.
        let differing = pairs.fold(0, |differing, (one, two)| {
            black_box(differing | (one ^ two))
        });
        differing == 0
    }
}

impl Eq for PasswordHash {}

/// Not the octets: they are a secret.
impl fmt::Debug for PasswordHash {
    fn fmt(&self, out: &mut fmt::Formatter<'_>) -> fmt::Result {
        out.write_str("PasswordHash(..)")
    }
}

/// There is room for one unit more than is allowed, so that the archive refuses it.
fn hash_units(units: impl Iterator<Item = u16>) -> Result<PasswordHash, Refusal> {
    let mut octets = Wiped([0; 2 * 257]);
    let mut length = 0;
    for (pair, unit) in octets.0.chunks_exact_mut(2).zip(units) {
        pair.copy_from_slice(&unit.to_le_bytes());
        length += 2;
    }
    let mut hash = PasswordHash::from_octets([0; 16]);
    done_of(raw::password_hash(&octets.0[..length], &mut hash.octets.0))?;
    // A move would leave the octets here; this one is wiped.
    Ok(hash.clone())
}
