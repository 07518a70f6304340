//! Both ends against each other, and states and packets of any kind: no call panics, and every
//! call keeps the promises that `common` checks.

mod common;

use common::*;
use second::*;

#[test]
fn peer_and_server_agree() {
    let mut random = Random(1);
    for _ in 0..200 {
        converse(&mut random);
    }
}

fn converse(random: &mut Random) {
    let retries = random.below(4);
    let wrong_tries = random.below(5);
    let (size, domain) = (random.below(20), random.below(2));
    let user: Vec<u8> = (0..size).map(|_| b'a' + random.below(26) as u8).collect();
    let name = if domain == 1 {
        [b"D\\", &user[..]].concat()
    } else {
        user.clone()
    };
    let hash: Octets16 = random.array();
    let table = [record(3, b"?"), account(0, &hash, &user)].concat();

    let first = if wrong_tries > 0 {
        random.array()
    } else {
        hash
    };
    let (_, mut peer) = Peer::new(&name, &first);
    let mut server = Server::new();
    let (_, mut request) = start_in(
        &mut server,
        random.next() as u8,
        b"server",
        retries as u64,
        ROOM,
    );
    for turn in 1.. {
        let (number, mut reply) = step_in(&mut peer, &request, &random.array(), ROOM);
        if number == 1 {
            let hash = if turn > wrong_tries {
                hash
            } else {
                random.array()
            };
            reply = supply_in(&mut peer, &name, &hash, ROOM).1;
        } else {
            assert_eq!(number, 0);
        }
        // A lost reply: the request comes again, and so does the reply.
        let (_, again) = resend_in(&server, ROOM);
        assert_eq!(again, request);
        assert_eq!(step(&mut peer, &again), (0, reply.clone()));
        let (number, written) = packet_in(&mut server, &reply, &table, &random.array(), ROOM);
        request = written;
        if number != 0 {
            let right = wrong_tries <= retries;
            assert_eq!(number, if right { 2 } else { 3 });
            assert_eq!(step(&mut peer, &request), (number, vec![]));
            return;
        }
    }
}

fn any_packet(random: &mut Random) -> Vec<u8> {
    let (id, chapid) = (random.below(3) as u8, random.below(3) as u8);
    let (string, size) = ([random.below(2) as u8; 20], random.below(40));
    let name = random.octets(size);
    let mut packet = match random.below(10) {
        0 => challenge(id, chapid, &[random.below(2) as u8; 16], &name),
        1 => response(id, chapid, &random.array(), &random.array(), &name),
        2 => success_and(id, chapid, &string, ["", " M=x"][random.below(2)]),
        3 => failure(id, chapid, random.next() % 1000, 0, &random.array(), ""),
        4 => failure(id, chapid, random.next() % 1000, 1, &random.array(), "y"),
        5 => short(2, id, 3),
        6 => short(2, id, 4),
        7 => eap(3, id),
        8 => eap(4, id),
        _ => name,
    };
    if random.below(4) == 0 && !packet.is_empty() {
        let header = packet.len().min(9);
        let bound = [header, packet.len()][random.below(2)];
        let at = random.below(bound);
        packet[at] ^= 1 << random.below(8);
    }
    packet
}

fn any_length(random: &mut Random, most: usize) -> u16 {
    match random.below(4) {
        0 => random.next() as u16,
        1 => random.below(3) as u16,
        _ => random.below(most + 2) as u16,
    }
}

fn any_peer(random: &mut Random) -> Peer {
    use PeerStage::*;
    let stages = [
        Begin,
        ChallengeResponseSent,
        SuccessResponseSent,
        FailureResponseSent,
        Waiting,
        Success,
        Failed,
    ];
    let mut peer = Peer {
        stage: stages[random.below(7)],
        name: random.array(),
        name_len: any_length(random, 256),
        password_hash: random.array(),
        authenticator_challenge: random.array(),
        peer_challenge: random.array(),
        chapid: ChapId(random.below(3) as u8),
        request: random.array(),
        request_len: any_length(random, 1020),
        reply: random.array(),
        reply_len: any_length(random, 315),
        expected: [random.below(2) as u8; 20],
    };
    peer.request[1] = random.below(3) as u8;
    peer
}

/// A Response sets the kept string; all else leaves it.
fn string_after(before: &Peer, peer: &Peer, responds: bool) -> [u8; 20] {
    if responds {
        defined_string(peer)
    } else {
        before.expected
    }
}

#[test]
fn any_peer_takes_any_packet() {
    let mut random = Random(2);
    let mut seen = [0; 24];
    for _ in 0..4000 {
        let before = any_peer(&mut random);
        let mut peer = before.clone();
        let packet = any_packet(&mut random);
        let room = random.below(400);
        let (number, written) = step_in(&mut peer, &packet, &random.array(), room);
        seen[usize::from(number)] += 1;
        let responds = before.stage == PeerStage::Begin && number == 0;
        assert_eq!(peer.expected, string_after(&before, &peer, responds));
        if number == 0 {
            let held = usize::from(peer.reply_len).min(315);
            assert_eq!(written, peer.reply[..held]);
            assert_eq!(
                packet::read(End::Server, &written).unwrap().length,
                written.len()
            );
            assert_eq!(step_in(&mut peer, &packet, &[0; 16], ROOM), (0, written));
        }
        let size = random.below(300);
        let name = random.octets(size);
        let before = any_peer(&mut random);
        let mut other = before.clone();
        let (number, _) = supply_in(&mut other, &name, &random.array(), random.below(400));
        assert!([0, 19, 20, 23].contains(&number));
        assert_eq!(other.expected, string_after(&before, &other, number == 0));
        assert!([3, 19].contains(&give_up(&mut any_peer(&mut random)).0));
    }
    for number in [0, 1, 2, 3, 10, 11, 13, 14, 15, 16, 17, 18, 19, 20] {
        assert!(seen[number] > 0, "{number} not seen");
    }
}

#[test]
fn any_server_takes_any_packet() {
    use ServerStage::*;
    let stages = [
        Begin,
        ChallengeSent,
        SuccessRequestSent,
        FailureRequestSent,
        Success,
        Failed,
    ];
    let mut random = Random(3);
    let mut seen = [0; 24];
    for _ in 0..4000 {
        let mut server = Server {
            stage: stages[random.below(6)],
            id: Identifier(random.below(3) as u8),
            chapid: ChapId(random.below(3) as u8),
            challenge: [random.below(2) as u8; 16],
            retries: any_length(&mut random, 10) as u8,
            request: random.array(),
            request_len: any_length(&mut random, 282),
        };
        resend_in(&server, random.below(400));
        let table = if random.below(3) == 0 {
            vec![1]
        } else {
            account(0, &HASH, b"u")
        };
        let mut octets = any_packet(&mut random);
        if random.below(3) == 0 {
            let nt = mschap::nt_response(&server.challenge, &RANDOM, b"u", &HASH).unwrap();
            octets = response(server.id.0, server.chapid.0, &RANDOM, &nt, b"u");
        }
        let fresh = [random.below(2) as u8; 16];
        let (number, written) = packet_in(&mut server, &octets, &table, &fresh, random.below(200));
        seen[usize::from(number)] += 1;
        if number < 10 {
            assert_eq!(
                packet::read(End::Peer, &written).unwrap().length,
                written.len()
            );
        }
        if number == 0 {
            assert_eq!(resend_in(&server, ROOM), (0, written));
        }
        let size = random.below(300);
        let name = random.octets(size);
        start_in(
            &mut server,
            1,
            &name,
            random.below(13) as u64,
            random.below(400),
        );
    }
    for number in [0, 2, 3, 10, 11, 13, 14, 15, 16, 17, 18, 19, 20, 21, 22] {
        assert!(seen[number] > 0, "{number} not seen");
    }
}
