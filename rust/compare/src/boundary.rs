//! The functions of `zirgumtak.h` over the second program: the same arguments, the same rules for
//! their sizes, and states as octets.

use second::number::BAD_ARGUMENT;
use second::{accounts, des as cipher, digest, mschap, packet, ChapId, End, Identifier, Numbered};
use second::{Peer, Place, Server};

use crate::layout::{peer_of, put_peer, put_reading, put_server, server_of, PEER, SERVER};

/// Number, n and where the server's text lies, or the number of a refusal.
pub type Told = Result<(Numbered, Place), u8>;

const NO_TEXT: Place = (0, 0);
const DONE: Told = Ok(((0, 0), NO_TEXT));

/// The word in which the boundary answers.
pub fn word(told: Told) -> u64 {
    let ((number, n), text) = told.unwrap_or_else(|refusal| ((refusal, 0), NO_TEXT));
    u64::from(number) | (n as u64) << 8 | (text.0 as u64) << 32 | (text.1 as u64) << 48
}

/// A slice of another size than is due is 23.
fn sized<const N: usize>(octets: &[u8]) -> Result<&[u8; N], u8> {
    octets.try_into().map_err(|_| BAD_ARGUMENT)
}

fn sized_mut<const N: usize>(octets: &mut [u8]) -> Result<&mut [u8; N], u8> {
    octets.try_into().map_err(|_| BAD_ARGUMENT)
}

/// A refusal writes no octet of the state.
fn on_peer(state: &mut [u8; PEER], call: impl FnOnce(&mut Peer) -> (Numbered, Place)) -> Told {
    let mut peer = peer_of(state);
    let (answer, text) = call(&mut peer);
    if answer.0 < 10 {
        put_peer(&peer, state);
    }
    Ok((answer, text))
}

fn on_server(state: &mut [u8; SERVER], call: impl FnOnce(&mut Server) -> Numbered) -> Told {
    let mut server = server_of(state);
    let answer = call(&mut server);
    if answer.0 < 10 {
        put_server(&server, state);
    }
    Ok((answer, NO_TEXT))
}

/// The result of a stateless call goes into its whole buffer; a refusal leaves it.
fn give<const N: usize>(out: &mut [u8; N], result: Result<[u8; N], u8>) -> Told {
    *out = result?;
    DONE
}

/// A name that is too long is 23 too, and writes a FAILED peer.
pub fn peer_new(state: &mut [u8], name: &[u8], hash: &[u8]) -> Told {
    let (state, hash) = (sized_mut(state)?, sized(hash)?);
    let (answer, peer) = Peer::new(name, hash);
    put_peer(&peer, state);
    Ok((answer, NO_TEXT))
}

pub fn peer_step(state: &mut [u8], packet: &[u8], random: &[u8], reply: &mut [u8]) -> Told {
    let (state, random) = (sized_mut(state)?, sized(random)?);
    on_peer(state, |peer| peer.step(packet, random, reply))
}

pub fn peer_supply(
    state: &mut [u8],
    name: &[u8],
    hash: &[u8],
    random: &[u8],
    reply: &mut [u8],
) -> Told {
    let (state, hash, random) = (sized_mut(state)?, sized(hash)?, sized(random)?);
    on_peer(state, |peer| {
        (peer.supply(name, hash, random, reply), NO_TEXT)
    })
}

pub fn peer_give_up(state: &mut [u8]) -> Told {
    on_peer(sized_mut(state)?, |peer| (peer.give_up(), NO_TEXT))
}

pub fn server_new(state: &mut [u8]) -> Told {
    put_server(&Server::new(), sized_mut(state)?);
    DONE
}

pub fn server_start(
    state: &mut [u8],
    identifier: u8,
    challenge: &[u8],
    name: &[u8],
    retries: u64,
    reply: &mut [u8],
) -> Told {
    let (state, challenge) = (sized_mut(state)?, sized(challenge)?);
    on_server(state, |server| {
        server.start(Identifier(identifier), challenge, name, retries, reply)
    })
}

pub fn server_packet(
    state: &mut [u8],
    packet: &[u8],
    table: &[u8],
    fresh: &[u8],
    reply: &mut [u8],
) -> Told {
    let (state, fresh) = (sized_mut(state)?, sized(fresh)?);
    on_server(state, |server| server.packet(packet, table, fresh, reply))
}

/// Reads the state, and leaves its octets whatever they are.
pub fn server_resend(state: &[u8], reply: &mut [u8]) -> Told {
    Ok((server_of(sized(state)?).resend(reply), NO_TEXT))
}

/// End 0 is the peer, 1 the server; another is 23, after 10 to 12, which are the same for both ends.
pub fn read(end: u8, lent: &[u8], reading: &mut [u8]) -> Told {
    let reading = sized_mut(reading)?;
    let end = match end {
        0 => End::Peer,
        1 => End::Server,
        _ => return packet::framed(lent).and(Err(BAD_ARGUMENT)),
    };
    let packet = packet::read(end, lent)?;
    put_reading(&packet, reading);
    Ok(((0, 0), packet.text()))
}

/// A writer's L is its n.
fn wrote(length: Result<usize, u8>) -> Told {
    Ok(((0, length?), NO_TEXT))
}

pub fn write_challenge(id: u8, chapid: u8, challenge: &[u8], name: &[u8], out: &mut [u8]) -> Told {
    let (id, chapid) = (Identifier(id), ChapId(chapid));
    let challenge = sized(challenge)?;
    wrote(packet::write_challenge(id, chapid, challenge, name, out))
}

pub fn write_response(
    id: u8,
    chapid: u8,
    peer_challenge: &[u8],
    nt_response: &[u8],
    name: &[u8],
    out: &mut [u8],
) -> Told {
    let (id, chapid) = (Identifier(id), ChapId(chapid));
    let (own, nt) = (sized(peer_challenge)?, sized(nt_response)?);
    wrote(packet::write_response(id, chapid, own, nt, name, out))
}

pub fn write_success_request(
    id: u8,
    chapid: u8,
    string: &[u8],
    text: &[u8],
    out: &mut [u8],
) -> Told {
    let (id, chapid) = (Identifier(id), ChapId(chapid));
    let string = sized(string)?;
    wrote(packet::write_success_request(id, chapid, string, text, out))
}

pub fn write_failure_request(
    id: u8,
    chapid: u8,
    code: u64,
    retry: u64,
    challenge: &[u8],
    text: &[u8],
    out: &mut [u8],
) -> Told {
    let (id, chapid) = (Identifier(id), ChapId(chapid));
    let c = sized(challenge)?;
    let r = u8::try_from(retry).map_err(|_| BAD_ARGUMENT)?;
    wrote(packet::write_failure_request(
        id, chapid, code, r, c, text, out,
    ))
}

pub fn write_success_response(id: u8, out: &mut [u8]) -> Told {
    wrote(packet::write_success_response(Identifier(id), out))
}

pub fn write_failure_response(id: u8, out: &mut [u8]) -> Told {
    wrote(packet::write_failure_response(Identifier(id), out))
}

pub fn write_eap_success(id: u8, out: &mut [u8]) -> Told {
    wrote(packet::write_eap_success(Identifier(id), out))
}

pub fn write_eap_failure(id: u8, out: &mut [u8]) -> Told {
    wrote(packet::write_eap_failure(Identifier(id), out))
}

pub fn accounts_check(table: &[u8]) -> Told {
    accounts::check(table)?;
    DONE
}

pub fn accounts_append(
    buffer: &mut [u8],
    used: usize,
    code: u64,
    hash: &[u8],
    name: &[u8],
) -> Told {
    let n = accounts::append(buffer, used, code, sized(hash)?, name)?;
    Ok(((0, n), NO_TEXT))
}

pub fn md4(data: &[u8], out: &mut [u8]) -> Told {
    give(sized_mut(out)?, digest::md4(data))
}

pub fn sha1(data: &[u8], out: &mut [u8]) -> Told {
    give(sized_mut(out)?, digest::sha1(data))
}

/// Half a unit is 23.
pub fn password_hash(units: &[u8], out: &mut [u8]) -> Told {
    let out = sized_mut(out)?;
    let (pairs, rest) = units.as_chunks();
    if !rest.is_empty() {
        return Err(BAD_ARGUMENT);
    }
    let units: Vec<u16> = pairs.iter().map(|pair| u16::from_le_bytes(*pair)).collect();
    give(out, mschap::password_hash(&units))
}

pub fn des(key: &[u8], block: &[u8], out: &mut [u8]) -> Told {
    let (key, block) = (sized(key)?, sized(block)?);
    give(sized_mut(out)?, Ok(cipher::encrypt(key, block)))
}

pub fn nt_response(
    authenticator_challenge: &[u8],
    peer_challenge: &[u8],
    user: &[u8],
    hash: &[u8],
    out: &mut [u8],
) -> Told {
    let authenticator_challenge = sized(authenticator_challenge)?;
    let (peer_challenge, hash) = (sized(peer_challenge)?, sized(hash)?);
    let response = mschap::nt_response(authenticator_challenge, peer_challenge, user, hash);
    give(sized_mut(out)?, response)
}

pub fn authenticator(
    hash: &[u8],
    nt_response: &[u8],
    peer_challenge: &[u8],
    authenticator_challenge: &[u8],
    user: &[u8],
    out: &mut [u8],
) -> Told {
    let (hash, nt_response) = (sized(hash)?, sized(nt_response)?);
    let peer_challenge = sized(peer_challenge)?;
    let authenticator_challenge = sized(authenticator_challenge)?;
    let string = mschap::authenticator(
        hash,
        nt_response,
        peer_challenge,
        authenticator_challenge,
        user,
    );
    give(sized_mut(out)?, string)
}
