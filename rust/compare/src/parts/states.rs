//! States that nobody made: any octets, lengths past their arrays, stages that are none, numbers
//! that differ. What they do is decided in docs/DECISIONS.md, and both must do it.

use second::{mschap, Octets16};

use crate::call::Call;
use crate::layout::{at, peer_of, server_of, PEER, SERVER};
use crate::packets::{
    account, any_name, any_packet, bare_success, challenge, eap, failure, mutate, response, short,
    success, Exchange,
};
use crate::pair::{Pair, Run};
use crate::random::Random;

const STATES: usize = 20_000;

pub fn run(pair: &mut Pair, random: &mut Random) -> Run<()> {
    for _ in 0..STATES {
        peer(pair, random)?;
        server(pair, random)?;
    }
    Ok(())
}

fn peer(pair: &mut Pair, random: &mut Random) -> Run<()> {
    let mut state = any_peer(random);
    let packet = packet_for_peer(random, &mut state);
    let room = any_room(random);
    let (name, hash): (_, Octets16) = (any_name(random), random.array());
    let own: Octets16 = random.array();
    let call = Call::PeerStep {
        packet: &packet,
        random: &own,
    };
    let (answer, after, _) = pair.try_on(call, &state, room)?;
    if answer.number == 0 {
        // Once more, and once more with padding.
        let padded = [&packet[..], &[1, 2, 3]].concat();
        pair.try_on(call, &after, room)?;
        pair.try_on(
            Call::PeerStep {
                packet: &padded,
                random: &own,
            },
            &after,
            room,
        )?;
    }
    let call = Call::PeerSupply {
        name: &name,
        hash: &hash,
        random: &own,
    };
    pair.try_on(call, &state, any_room(random))?;
    pair.try_on(Call::PeerGiveUp, &state, 0)?;
    Ok(())
}

fn server(pair: &mut Pair, random: &mut Random) -> Run<()> {
    let state = any_server(random);
    let hash: Octets16 = random.array();
    let (packet, table) = packet_for_server(random, &state, &hash);
    let fresh = [random.below(2) as u8; 16];
    let call = Call::ServerPacket {
        packet: &packet,
        table: &table,
        fresh: &fresh,
    };
    let (_, after, _) = pair.try_on(call, &state, any_room(random))?;
    for state in [&state[..], &after] {
        pair.try_on(Call::ServerResend, state, any_room(random))?;
    }
    let name = any_name(random);
    let call = Call::ServerStart {
        identifier: random.octet(),
        challenge: &fresh,
        name: &name,
        retries: random.below(13) as u64,
    };
    pair.try_on(call, &state, any_room(random))?;
    Ok(())
}

fn any_room(random: &mut Random) -> usize {
    match random.below(4) {
        0 => random.below(8),
        1 => random.below(120),
        _ => 400,
    }
}

/// Small ones, ones around the array's size, and any.
fn any_length(random: &mut Random, array: usize) -> [u8; 2] {
    let length = match random.below(5) {
        0 => random.number() as u16,
        1 => random.below(4) as u16,
        2 => (array - 1 + random.below(3)) as u16,
        _ => random.below(array + 1) as u16,
    };
    length.to_le_bytes()
}

fn put(state: &mut [u8], start: usize, octets: &[u8]) {
    state[start..start + octets.len()].copy_from_slice(octets);
}

fn any_peer(random: &mut Random) -> [u8; PEER] {
    let mut state: [u8; PEER] = if random.once_in(3) {
        [0; PEER]
    } else {
        random.array()
    };
    state[at::STAGE] = random.pick(&[0, 0, 1, 1, 1, 1, 2, 3, 4, 4, 5, 6, 7, 255]);
    state[at::PEER_CHAPID] = random.below(4) as u8;
    put(&mut state, at::PEER_NAME_LENGTH, &any_length(random, 256));
    put(
        &mut state,
        at::PEER_REQUEST_LENGTH,
        &any_length(random, 1020),
    );
    put(&mut state, at::PEER_REPLY_LENGTH, &any_length(random, 315));
    state[at::PEER_REQUEST + 1] = random.below(4) as u8;
    state
}

/// What the state takes, the request that it keeps, or any packet.
fn packet_for_peer(random: &mut Random, state: &mut [u8; PEER]) -> Vec<u8> {
    let (id, chapid) = (random.below(4) as u8, random.below(4) as u8);
    let text = random.pick(&[&b""[..], b"text", b" M="]);
    match random.below(9) {
        0 => success(id, chapid, &some_string(random, state), text),
        8 => bare_success(id, chapid, &some_string(random, state)),
        1 => failure(
            id,
            chapid,
            691,
            random.below(2) as u8,
            &random.array(),
            text,
        ),
        2 => challenge(id, chapid, &random.array(), b"srv"),
        3 => eap(random.pick(&[3, 4]), state[at::PEER_REQUEST + 1]),
        4 | 5 => kept_request(random, state),
        _ => any_packet(random),
    }
}

/// The string that the state keeps, which is often made the one that its other fields call for;
/// or that one, kept or not; or the kept one but for a bit.
fn some_string(random: &mut Random, state: &mut [u8; PEER]) -> [u8; 20] {
    let computed = Exchange::of(&peer_of(state)).string();
    if random.once_in(2) {
        put(state, at::PEER_EXPECTED, &computed);
    }
    let mut string = peer_of(state).expected;
    match random.below(4) {
        0 => computed,
        1 => {
            string[random.below(20)] ^= 1 << random.below(8);
            string
        }
        _ => string,
    }
}

/// A request that the state keeps, or one that differs from it a little.
fn kept_request(random: &mut Random, state: &mut [u8; PEER]) -> Vec<u8> {
    let mut packet = any_packet(random);
    packet.truncate(1020);
    put(state, at::PEER_REQUEST, &packet);
    let length = packet.len() as u16 + random.pick(&[0, 0, 0, 1]);
    put(state, at::PEER_REQUEST_LENGTH, &length.to_le_bytes());
    if random.once_in(3) {
        mutate(random, &mut packet);
    }
    packet
}

fn any_server(random: &mut Random) -> [u8; SERVER] {
    let mut state: [u8; SERVER] = random.array();
    state[at::STAGE] = random.pick(&[0, 1, 1, 1, 1, 2, 2, 3, 3, 4, 5, 6, 255]);
    state[at::SERVER_ID] = random.pick(&[0, 1, 2, 254, 255]);
    state[at::SERVER_CHAPID] = random.pick(&[0, 1, 2, 254, 255]);
    state[at::SERVER_RETRIES] = random.pick(&[0, 0, 1, 2, 10, 11, 128, 255]);
    put(
        &mut state,
        at::SERVER_REQUEST_LENGTH,
        &any_length(random, 282),
    );
    if random.once_in(2) {
        put(
            &mut state,
            at::SERVER_CHALLENGE,
            &[random.below(2) as u8; 16],
        );
    }
    state
}

/// What the state takes, right or wrong, or any packet; and a table that has the hash.
fn packet_for_server(
    random: &mut Random,
    state: &[u8; SERVER],
    hash: &Octets16,
) -> (Vec<u8>, Vec<u8>) {
    let server = server_of(state);
    let (id, chapid) = (server.id.0, server.chapid.0);
    let mut name = any_name(random);
    name.truncate(40);
    let user = mschap::user_of(&name).expect("a short name").to_vec();
    let code = random.pick(&[0, 0, 647, 649, 650]);
    let table = account(code, hash, &user);
    let own: Octets16 = random.array();
    let right = mschap::nt_response(&server.challenge, &own, &user, hash).expect("a short name");
    let nt = if random.once_in(3) {
        random.array()
    } else {
        right
    };
    let mut packet = match random.below(8) {
        0..=3 => response(id, chapid, &own, &nt, &name),
        4 => short(2, id, 3),
        5 => short(2, id, 4),
        _ => any_packet(random),
    };
    if random.once_in(5) {
        mutate(random, &mut packet);
    }
    (packet, table)
}
