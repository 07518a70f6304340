//! Response arithmetic: document 01's section of that name, after RFC 2759, section 8.

use crate::digest::{md4_of, sha1_of};
use crate::number::BAD_ARGUMENT;
use crate::{des, Octets16, MAX_NAME, MAX_PASSWORD};

pub type ChallengeHash = [u8; 8];
pub type NtResponse = [u8; 24];
/// The authenticator string before it is written as 40 hex digits.
pub type AuthenticatorString = [u8; 20];

const MAGIC1: &[u8; 39] = b"Magic server to client signing constant";
const MAGIC2: &[u8; 41] = b"Pad to make it do more than one iteration";

/// MD4 of the units, each low octet first; 23 over 256 units.
pub fn password_hash(units: &[u16]) -> Result<Octets16, u8> {
    if units.len() > MAX_PASSWORD {
        return Err(BAD_ARGUMENT);
    }
    let mut octets = [0; 2 * MAX_PASSWORD];
    for (pair, unit) in octets.chunks_exact_mut(2).zip(units) {
        pair.copy_from_slice(&unit.to_le_bytes());
    }
    Ok(md4_of(&[&octets[..2 * units.len()]]))
}

/// The name after its first backslash, or all of it if it has none; 23 over 256 octets.
pub fn user_of(name: &[u8]) -> Result<&[u8], u8> {
    check_name(name)?;
    Ok(user(name))
}

/// The first 8 octets of SHA-1 over peer challenge, authenticator challenge and user; 23 for a
/// user over 256 octets.
pub fn challenge_hash(
    peer_challenge: &Octets16,
    authenticator_challenge: &Octets16,
    user: &[u8],
) -> Result<ChallengeHash, u8> {
    check_name(user)?;
    Ok(hash_challenges(
        peer_challenge,
        authenticator_challenge,
        user,
    ))
}

/// The NT-Response to a challenge; 23 for a user over 256 octets.
pub fn nt_response(
    authenticator_challenge: &Octets16,
    peer_challenge: &Octets16,
    user: &[u8],
    password_hash: &Octets16,
) -> Result<NtResponse, u8> {
    let block = challenge_hash(peer_challenge, authenticator_challenge, user)?;
    Ok(respond(&block, password_hash))
}

/// The authenticator string; 23 for a user over 256 octets.
pub fn authenticator(
    password_hash: &Octets16,
    nt_response: &NtResponse,
    peer_challenge: &Octets16,
    authenticator_challenge: &Octets16,
    user: &[u8],
) -> Result<AuthenticatorString, u8> {
    let block = challenge_hash(peer_challenge, authenticator_challenge, user)?;
    Ok(sign(password_hash, nt_response, &block))
}

fn check_name(name: &[u8]) -> Result<(), u8> {
    if name.len() > MAX_NAME {
        return Err(BAD_ARGUMENT);
    }
    Ok(())
}

/// [`user_of`] a name of whatever size.
pub(crate) fn user(name: &[u8]) -> &[u8] {
    match name.iter().position(|&octet| octet == b'\\') {
        Some(backslash) => &name[backslash + 1..],
        None => name,
    }
}

pub(crate) fn hash_challenges(
    peer_challenge: &Octets16,
    authenticator_challenge: &Octets16,
    user: &[u8],
) -> ChallengeHash {
    let digest = sha1_of(&[peer_challenge, authenticator_challenge, user]);
    std::array::from_fn(|i| digest[i])
}

/// The hash with five zeros appended, cut in three DES keys, each enciphering the challenge hash.
pub(crate) fn respond(challenge_hash: &ChallengeHash, password_hash: &Octets16) -> NtResponse {
    let mut keys = [0; 21];
    keys[..16].copy_from_slice(password_hash);
    let mut response = [0; 24];
    for (out, key) in response
        .as_chunks_mut::<8>()
        .0
        .iter_mut()
        .zip(keys.as_chunks::<7>().0)
    {
        *out = des::encrypt(&des::with_parity(key), challenge_hash);
    }
    response
}

/// Both SHA-1 passes of the authenticator string.
pub(crate) fn sign(
    password_hash: &Octets16,
    nt_response: &NtResponse,
    challenge_hash: &ChallengeHash,
) -> AuthenticatorString {
    let hash_hash = md4_of(&[password_hash]);
    let digest = sha1_of(&[&hash_hash, nt_response, MAGIC1]);
    sha1_of(&[&digest, challenge_hash, MAGIC2])
}
