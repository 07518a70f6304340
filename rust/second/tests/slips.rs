//! The six slips seen before.

mod common;

use common::*;
use second::*;

fn peer_after(challenge_id: u8) -> Peer {
    let (_, mut peer) = Peer::new(b"CAMP\\frz", &HASH);
    assert_eq!(
        step(&mut peer, &challenge(challenge_id, 1, &AUTHENTICATOR, b"s")).0,
        0
    );
    peer
}

fn started(retries: u64) -> Server {
    let mut server = Server::new();
    assert_eq!(start_in(&mut server, 7, b"server", retries, ROOM).0, 0);
    server
}

fn answer(server: &Server, challenge: &Octets16, user: &[u8], hash: &Octets16) -> Vec<u8> {
    let nt = mschap::nt_response(challenge, &RANDOM, user, hash).unwrap();
    response(server.id.0, server.chapid.0, &RANDOM, &nt, user)
}

#[test]
fn a_lower_identifier_is_not_old() {
    let peer = peer_after(200);
    for id in [0, 1, 199, 201, 255] {
        assert_eq!(
            step(&mut peer.clone(), &failure(id, 1, 691, 0, &FRESH, "")).0,
            0
        );
    }
    let mut server = Server::new();
    start_in(&mut server, 255, b"server", 0, ROOM);
    let octets = answer(&server, &AUTHENTICATOR, b"frz", &HASH);
    let table = account(0, &HASH, b"frz");
    let (number, written) = packet(&mut server, &octets, &table);
    assert_eq!((number, written[1]), (0, 0));
}

#[test]
fn a_repeat_makes_no_new_peer_challenge() {
    let mut peer = peer_after(7);
    let before = peer.clone();
    let again = step_in(
        &mut peer,
        &challenge(7, 1, &AUTHENTICATOR, b"s"),
        &[9; 16],
        ROOM,
    );
    assert_eq!(again, (0, before.reply[..67].to_vec()));
    assert_eq!(again.1[10..26], RANDOM);
    assert_eq!(peer, before);
}

#[test]
fn the_code_is_told_only_to_who_knows_the_password() {
    let table = account(647, &HASH, b"frz");
    let mut server = started(0);
    let octets = answer(&server, &AUTHENTICATOR, b"frz", &[0; 16]);
    assert_eq!(
        packet(&mut server.clone(), &octets, &table).1,
        failure(8, 8, 691, 0, &FRESH, "")
    );
    let octets = answer(&server, &AUTHENTICATOR, b"frz", &HASH);
    assert_eq!(
        packet(&mut server, &octets, &table).1,
        failure(8, 8, 647, 0, &FRESH, "")
    );
}

#[test]
fn the_domain_is_not_hashed() {
    let peer = peer_after(7);
    let nt = mschap::nt_response(&AUTHENTICATOR, &RANDOM, b"frz", &HASH).unwrap();
    assert_eq!(peer.reply[34..58], nt);
    assert_eq!(&peer.reply[59..67], b"CAMP\\frz"); // but it is sent
    let with_domain = mschap::nt_response(&AUTHENTICATOR, &RANDOM, b"CAMP\\frz", &HASH).unwrap();
    assert_ne!(nt, with_domain);
    let table = [account(0, &HASH, b"frz"), account(0, &HASH, b"CAMP\\frz")].concat();
    let octets = response(7, 7, &RANDOM, &with_domain, b"CAMP\\frz");
    assert_eq!(packet(&mut started(0), &octets, &table).1[5], 4);
    let octets = response(7, 7, &RANDOM, &nt, b"CAMP\\frz");
    assert_eq!(packet(&mut started(0), &octets, &table).1[5], 3);
}

#[test]
fn padding_is_not_compared() {
    let mut peer = peer_after(7);
    let packet = challenge(7, 1, &AUTHENTICATOR, b"s");
    for padding in [&b""[..], b"\0", b"padding", &[0xff; 2000]] {
        let said = step(&mut peer, &[&packet[..], padding].concat());
        assert_eq!(said, (0, peer.reply[..67].to_vec()));
    }
    // Nor kept: a request that came with padding is repeated without.
    let (_, mut peer) = Peer::new(b"frz", &HASH);
    assert_eq!(step(&mut peer, &[&packet[..], b"padding"].concat()).0, 0);
    assert_eq!(step(&mut peer, &packet).0, 0);
}

#[test]
fn the_old_challenge_goes_after_a_retry() {
    let table = account(0, &HASH, b"frz");
    let mut server = started(1);
    let octets = answer(&server, &AUTHENTICATOR, b"frz", &[0; 16]);
    assert_eq!(
        packet(&mut server, &octets, &table).1,
        failure(8, 8, 691, 1, &FRESH, "")
    );
    let old = answer(&server, &AUTHENTICATOR, b"frz", &HASH);
    let fresh = [8; 16];
    let said = packet_in(&mut server.clone(), &old, &table, &fresh, ROOM);
    assert_eq!(said.1, failure(9, 9, 691, 0, &fresh, ""));
    let new = answer(&server, &FRESH, b"frz", &HASH);
    assert_eq!(packet(&mut server, &new, &table).1[5], 3);

    let mut peer = peer_after(7);
    assert_eq!(step(&mut peer, &failure(8, 8, 691, 1, &FRESH, "")).0, 1);
    let (_, written) = supply_in(&mut peer, b"frz", &HASH, ROOM);
    let nt = mschap::nt_response(&FRESH, &RANDOM, b"frz", &HASH).unwrap();
    assert_eq!(written, response(8, 8, &RANDOM, &nt, b"frz"));
}
