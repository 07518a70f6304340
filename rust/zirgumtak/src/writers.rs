//! Packets written without a state.
//!
//! Each writer answers the packet, which is the start of the lent buffer; the octets after it, and
//! all of them at a refusal, stay as they were.

use crate::answer::{answer_of, Refusal};
use crate::{raw, ChapId, Octets16};

/// The packet that a writer wrote.
fn written(word: u64, out: &[u8]) -> Result<&[u8], Refusal> {
    Ok(answer_of(word, out)?.packet())
}

/// Writes a Challenge to the start of the buffer, and answers it.
///
/// Refusals, the first that holds: 23 (a name of 0 octets or over 994), 20.
pub fn write_challenge<'b>(
    identifier: u8,
    chap_id: ChapId,
    challenge: &Octets16,
    name: &[u8],
    out: &'b mut [u8],
) -> Result<&'b [u8], Refusal> {
    let word = raw::write_challenge(identifier, chap_id.0, challenge, name, out);
    written(word, out)
}

/// Writes a Response to the start of the buffer, and answers it.
///
/// Refusals, the first that holds: 23 (a name over 256 octets), 20.
pub fn write_response<'b>(
    identifier: u8,
    chap_id: ChapId,
    peer_challenge: &Octets16,
    nt_response: &[u8; 24],
    name: &[u8],
    out: &'b mut [u8],
) -> Result<&'b [u8], Refusal> {
    let word = raw::write_response(
        identifier,
        chap_id.0,
        peer_challenge,
        nt_response,
        name,
        out,
    );
    written(word, out)
}

/// Writes a Success Request to the start of the buffer, and answers it. The authenticator string
/// comes as [`authenticator`](crate::authenticator) gives it; the text is any octets or none.
///
/// Refusals, the first that holds: 23 (a text over 966 octets), 20.
pub fn write_success_request<'b>(
    identifier: u8,
    chap_id: ChapId,
    string: &[u8; 20],
    text: &[u8],
    out: &'b mut [u8],
) -> Result<&'b [u8], Refusal> {
    let word = raw::write_success_request(identifier, chap_id.0, string, text, out);
    written(word, out)
}

/// Writes a Failure Request to the start of the buffer, and answers it: R=1 with `retry`, R=0
/// without. The text is any octets or none.
///
/// Refusals, the first that holds: 23 (a code over 9,999,999,999, a text over 963 octets less the
/// digits of the code), 20.
pub fn write_failure_request<'b>(
    identifier: u8,
    chap_id: ChapId,
    code: u64,
    retry: bool,
    challenge: &Octets16,
    text: &[u8],
    out: &'b mut [u8],
) -> Result<&'b [u8], Refusal> {
    let retry = u64::from(retry);
    let word = raw::write_failure_request(identifier, chap_id.0, code, retry, challenge, text, out);
    written(word, out)
}

/// Writes a Success Response to the start of the buffer, and answers its 6 octets; 20.
pub fn write_success_response(identifier: u8, out: &mut [u8]) -> Result<&[u8], Refusal> {
    written(raw::write_success_response(identifier, out), out)
}

/// Writes a Failure Response to the start of the buffer, and answers its 6 octets; 20.
pub fn write_failure_response(identifier: u8, out: &mut [u8]) -> Result<&[u8], Refusal> {
    written(raw::write_failure_response(identifier, out), out)
}

/// Writes EAP Success to the start of the buffer, and answers its 4 octets; 20.
pub fn write_eap_success(identifier: u8, out: &mut [u8]) -> Result<&[u8], Refusal> {
    written(raw::write_eap_success(identifier, out), out)
}

/// Writes EAP Failure to the start of the buffer, and answers its 4 octets; 20.
pub fn write_eap_failure(identifier: u8, out: &mut [u8]) -> Result<&[u8], Refusal> {
    written(raw::write_eap_failure(identifier, out), out)
}
