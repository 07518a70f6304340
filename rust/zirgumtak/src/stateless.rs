//! What needs no state: digests, cipher, response arithmetic.

use crate::answer::{done_of, Refusal};
use crate::{raw, Octets16, PasswordHash};

/// The archive's version: major * 10000 + minor * 100 + patch. It is to be this crate's.
pub fn version() -> u64 {
    raw::version()
}

/// MD4; [`Refusal::BadArgument`] over 65,536 octets.
pub fn md4(data: &[u8]) -> Result<[u8; 16], Refusal> {
    let mut digest = [0; 16];
    done_of(raw::md4(data, &mut digest))?;
    Ok(digest)
}

/// SHA-1; [`Refusal::BadArgument`] over 65,536 octets.
pub fn sha1(data: &[u8]) -> Result<[u8; 20], Refusal> {
    let mut digest = [0; 20];
    done_of(raw::sha1(data, &mut digest))?;
    Ok(digest)
}

/// One block enciphered with DES.
pub fn des(key: &[u8; 8], block: &[u8; 8]) -> [u8; 8] {
    let mut out = [0; 8];
    let word = raw::des(key, block, &mut out);
    debug_assert_eq!(word, 0, "eight octets each are enciphered");
    out
}

/// The NT-Response of RFC 2759, 8.1, for a user, which is a name without its domain;
/// [`Refusal::BadArgument`] for a user over 256 octets.
pub fn nt_response(
    authenticator_challenge: &Octets16,
    peer_challenge: &Octets16,
    user: &[u8],
    hash: &PasswordHash,
) -> Result<[u8; 24], Refusal> {
    let mut out = [0; 24];
    done_of(raw::nt_response(
        authenticator_challenge,
        peer_challenge,
        user,
        hash.octets(),
        &mut out,
    ))?;
    Ok(out)
}

/// The authenticator string of RFC 2759, 8.7, before it is written in hex;
/// [`Refusal::BadArgument`] for a user over 256 octets.
pub fn authenticator(
    hash: &PasswordHash,
    nt_response: &[u8; 24],
    peer_challenge: &Octets16,
    authenticator_challenge: &Octets16,
    user: &[u8],
) -> Result<[u8; 20], Refusal> {
    let mut out = [0; 20];
    done_of(raw::authenticator(
        hash.octets(),
        nt_response,
        peer_challenge,
        authenticator_challenge,
        user,
        &mut out,
    ))?;
    Ok(out)
}
