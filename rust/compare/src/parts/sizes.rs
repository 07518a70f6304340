//! The calls that have no state, and the boundary's own rule: a slice of another size than is due
//! is 23 before all else, and nothing changes.

use crate::call::Call;
use crate::layout::{PEER, READING, SERVER};
use crate::pair::{Pair, Run};
use crate::random::Random;

const TRIES: usize = 2000;

pub fn run(pair: &mut Pair, random: &mut Random) -> Run<()> {
    digests(pair, random)?;
    passwords(pair, random)?;
    for _ in 0..TRIES {
        ciphers(pair, random)?;
        peers(pair, random)?;
        servers(pair, random)?;
        let packet = random.octets(8);
        let end = random.pick(&[0, 1, 2, 3, 128, 255]);
        pair.result(
            Call::Read {
                end,
                packet: &packet,
            },
            size(random, READING),
        )?;
    }
    Ok(())
}

/// The size that is due, and now and then another.
fn size(random: &mut Random, due: usize) -> usize {
    match random.below(24) {
        0 => due - 1,
        1 => due + 1,
        2 => random.below(2 * due),
        3 => random.pick(&[0, due + 256, due + 65_536]),
        _ => due,
    }
}

fn octets(random: &mut Random, due: usize) -> Vec<u8> {
    let size = size(random, due);
    random.octets(size)
}

/// Every length over several blocks, and the largest.
fn digests(pair: &mut Pair, random: &mut Random) -> Run<()> {
    let some = [
        1000, 4096, 65_471, 65_472, 65_527, 65_528, 65_535, 65_536, 65_537, 65_600, 131_072,
    ];
    for length in (0..=330).chain(some) {
        let data = random.octets(length);
        let sizes = [16, size(random, 16), size(random, 20), 20];
        for size in sizes {
            pair.result(Call::Md4 { data: &data }, size)?;
            pair.result(Call::Sha1 { data: &data }, size)?;
        }
    }
    Ok(())
}

fn passwords(pair: &mut Pair, random: &mut Random) -> Run<()> {
    for length in (0..=520).chain([1024, 65_536, 65_537]) {
        let units = random.octets(length);
        for size in [16, size(random, 16)] {
            pair.result(Call::PasswordHash { units: &units }, size)?;
        }
    }
    Ok(())
}

fn ciphers(pair: &mut Pair, random: &mut Random) -> Run<()> {
    let (key, block) = (octets(random, 8), octets(random, 8));
    pair.result(
        Call::Des {
            key: &key,
            block: &block,
        },
        size(random, 8),
    )?;
    let user_size = random.pick(&[
        0, 1, 5, 22, 23, 24, 31, 32, 33, 86, 87, 88, 255, 256, 257, 300,
    ]);
    let user = random.octets(user_size);
    let (theirs, own, hash) = (octets(random, 16), octets(random, 16), octets(random, 16));
    let call = Call::NtResponse {
        authenticator_challenge: &theirs,
        peer_challenge: &own,
        user: &user,
        hash: &hash,
    };
    pair.result(call, size(random, 24))?;
    let nt_response = octets(random, 24);
    let call = Call::Authenticator {
        hash: &hash,
        nt_response: &nt_response,
        peer_challenge: &own,
        authenticator_challenge: &theirs,
        user: &user,
    };
    pair.result(call, size(random, 20))?;
    Ok(())
}

fn peers(pair: &mut Pair, random: &mut Random) -> Run<()> {
    let mut state = octets(random, PEER);
    if let Some(stage) = state.first_mut() {
        *stage = random.pick(&[0, 4, 9]);
    }
    let name_size = random.pick(&[0, 3, 255, 256, 257, 258, 512, 65_792]);
    let name = random.octets(name_size);
    let (hash, own) = (octets(random, 16), octets(random, 16));
    pair.try_on(
        Call::PeerNew {
            name: &name,
            hash: &hash,
        },
        &state,
        0,
    )?;
    let packet = crate::packets::any_packet(random);
    let room = random.below(330);
    pair.try_on(
        Call::PeerStep {
            packet: &packet,
            random: &own,
        },
        &state,
        room,
    )?;
    let call = Call::PeerSupply {
        name: &name,
        hash: &hash,
        random: &own,
    };
    pair.try_on(call, &state, room)?;
    pair.try_on(Call::PeerGiveUp, &state, 0)?;
    Ok(())
}

fn servers(pair: &mut Pair, random: &mut Random) -> Run<()> {
    let mut state = octets(random, SERVER);
    if let Some(stage) = state.first_mut() {
        *stage = random.pick(&[0, 1, 9]);
    }
    let challenge = octets(random, 16);
    let name_size = random.pick(&[0, 1, 6, 255, 256, 257, 512, 994, 995, 65_537]);
    let name = random.octets(name_size);
    let retries = random.pick(&[0, 1, 9, 10, 11, 256, 266, 1 << 32, (1 << 63) + 1]);
    let room = random.below(330);
    pair.try_on(Call::ServerNew, &state, 0)?;
    let call = Call::ServerStart {
        identifier: random.octet(),
        challenge: &challenge,
        name: &name,
        retries,
    };
    pair.try_on(call, &state, room)?;
    let packet = crate::packets::any_packet(random);
    let call = Call::ServerPacket {
        packet: &packet,
        table: &name,
        fresh: &challenge,
    };
    pair.try_on(call, &state, room)?;
    pair.try_on(Call::ServerResend, &state, room)?;
    Ok(())
}
