//! The peer: every row of its stage table, the whole state after each move, the repeat rule, 18 to
//! 20 and 23 with their order, the kept string, the server's text, and states that were handed in.

mod common;

use common::*;
use second::PeerStage::*;
use second::*;

const NAME: &[u8] = b"CAMP\\frz";
const STAGES: [PeerStage; 7] = [
    Begin,
    ChallengeResponseSent,
    SuccessResponseSent,
    FailureResponseSent,
    Waiting,
    Success,
    Failed,
];

fn fresh() -> Peer {
    let (answer, peer) = Peer::new(NAME, &HASH);
    assert_eq!(answer, (0, 0));
    peer
}

fn first_challenge() -> Vec<u8> {
    challenge(7, 9, &AUTHENTICATOR, b"server")
}

fn expected_response(id: u8, chapid: u8, challenge: &Octets16, name: &[u8]) -> Vec<u8> {
    let user = mschap::user_of(name).unwrap();
    let nt = mschap::nt_response(challenge, &RANDOM, user, &HASH).unwrap();
    response(id, chapid, &RANDOM, &nt, name)
}

fn wrong_string(peer: &Peer) -> [u8; 20] {
    with_other_bit(&defined_string(peer), 152)
}

fn with_other_bit(string: &[u8; 20], bit: usize) -> [u8; 20] {
    let mut other = *string;
    other[bit / 8] ^= 1 << (bit % 8);
    other
}

/// A peer brought to a stage by its moves. The last answered Identifier is 7, or 8 after a
/// second request.
fn made(stage: PeerStage) -> Peer {
    let mut peer = fresh();
    if stage != Begin {
        assert_eq!(step(&mut peer, &first_challenge()).0, 0);
    }
    let then = match stage {
        Begin | ChallengeResponseSent => vec![],
        SuccessResponseSent => vec![success(8, 9, &defined_string(&peer), "")],
        FailureResponseSent => vec![failure(8, 9, 691, 0, &FRESH, "")],
        Waiting => vec![failure(8, 33, 691, 1, &FRESH, "again")],
        Success => vec![success(8, 9, &defined_string(&peer), ""), eap(3, 8)],
        Failed => vec![eap(4, 7)],
    };
    for packet in &then {
        assert!(step(&mut peer, packet).0 < 10);
    }
    assert_eq!(peer.stage, stage);
    peer
}

fn last(peer: &Peer) -> u8 {
    if peer.request_len < 2 {
        0
    } else {
        peer.request[1]
    }
}

/// A packet of every kind the peer reads. Only the EAP ones have the last answered Identifier.
fn every_kind(peer: &Peer, right: &[u8; 20]) -> Vec<Vec<u8>> {
    let (id, wrong) = (last(peer), with_other_bit(right, 0));
    vec![
        challenge(50, 1, &AUTHENTICATOR, b"s"),
        success(50, 1, right, "M= S="),
        success(50, 1, &wrong, ""),
        failure(50, 1, 691, 0, &AUTHENTICATOR, ""),
        failure(50, 1, 648, 1, &AUTHENTICATOR, ""),
        eap(3, id),
        eap(4, id),
        success_and(50, 1, right, ""),
        success_and(50, 1, &wrong, ""),
    ]
}

#[test]
fn made_from_name_and_hash() {
    let peer = fresh();
    let zero = Peer {
        stage: Begin,
        name: [0; 256],
        name_len: 0,
        password_hash: [0; 16],
        authenticator_challenge: [0; 16],
        peer_challenge: [0; 16],
        chapid: ChapId(0),
        request: [0; 1020],
        request_len: 0,
        reply: [0; 315],
        reply_len: 0,
        expected: [0; 20],
    };
    let expected = Peer {
        name: padded(NAME),
        name_len: 8,
        password_hash: HASH,
        ..zero.clone()
    };
    assert_eq!(peer, expected);
    assert_eq!(Peer::new(&[b'n'; 256], &HASH).0, (0, 0));
    assert_eq!(Peer::new(b"", &[0; 16]), ((0, 0), zero.clone()));
    assert_eq!(
        Peer::new(&[b'n'; 257], &HASH),
        (
            (23, 0),
            Peer {
                stage: Failed,
                ..zero
            }
        )
    );
}

#[test]
fn stage_table() {
    let mut taken = 0;
    for stage in STAGES {
        let peer = made(stage);
        let packets = every_kind(&peer, &defined_string(&peer));
        for (kind, packet) in packets.iter().enumerate() {
            let (expected, next) = match (stage, kind) {
                (Begin, 0) => (0, ChallengeResponseSent),
                (ChallengeResponseSent, 1 | 7) => (0, SuccessResponseSent),
                (ChallengeResponseSent, 2 | 8) => (3, Failed),
                (ChallengeResponseSent, 3) => (0, FailureResponseSent),
                (ChallengeResponseSent, 4) => (1, Waiting),
                (ChallengeResponseSent, 6) => (3, Failed),
                (SuccessResponseSent, 5) => (2, Success),
                (SuccessResponseSent, 6) => (3, Failed),
                (FailureResponseSent, 6) => (3, Failed),
                _ => (19, stage),
            };
            let mut after = peer.clone();
            let (number, written) = step(&mut after, packet);
            assert_eq!((number, after.stage), (expected, next), "{stage:?} {kind}");
            assert_eq!(written.is_empty(), number != 0);
            taken += usize::from(number < 10);
        }
    }
    assert_eq!(taken, 11);
}

#[test]
fn a_challenge_brings_a_response() {
    for packet in [
        first_challenge(),
        challenge(0, 255, &AUTHENTICATOR, &[b's'; 994]),
    ] {
        let (id, chapid) = (packet[1], packet[6]);
        let mut peer = fresh();
        let expected = expected_response(id, chapid, &AUTHENTICATOR, NAME);
        let padding = [&packet[..], &[1, 2, 3]].concat();
        assert_eq!(step(&mut peer, &padding), (0, expected.clone()));
        let mut state = Peer {
            stage: ChallengeResponseSent,
            authenticator_challenge: AUTHENTICATOR,
            peer_challenge: RANDOM,
            chapid: ChapId(chapid),
            request: padded(&packet),
            request_len: packet.len() as u16,
            reply: padded(&expected),
            reply_len: expected.len() as u16,
            ..fresh()
        };
        state.expected = defined_string(&state);
        assert_eq!(peer, state);
    }
}

#[test]
fn requests_after_the_response() {
    let before = made(ChallengeResponseSent);
    let rows = [
        (
            success(8, 77, &defined_string(&before), "Willkommen"),
            SuccessResponseSent,
            3,
        ),
        (
            success_and(8, 77, &defined_string(&before), ""),
            SuccessResponseSent,
            3,
        ),
        (failure(8, 77, 691, 0, &FRESH, "no"), FailureResponseSent, 4),
    ];
    for (packet, stage, op) in rows {
        let mut peer = before.clone();
        let reply = short(2, 8, op);
        assert_eq!(step_in(&mut peer, &packet, &[0; 16], 6), (0, reply.clone()));
        let state = Peer {
            stage,
            request: padded(&packet),
            request_len: packet.len() as u16,
            reply: padded(&reply),
            reply_len: 6,
            ..before.clone()
        };
        assert_eq!(peer, state);
        // 20, and nothing changed.
        for room in 0..6 {
            assert_eq!(step_in(&mut before.clone(), &packet, &[0; 16], room).0, 20);
        }
    }
}

#[test]
fn moves_that_set_the_stage_only() {
    let sent = made(ChallengeResponseSent);
    let confirmed = made(SuccessResponseSent);
    let rows = [
        (&sent, success(8, 9, &wrong_string(&sent), ""), 3, Failed),
        (
            &sent,
            success_and(8, 9, &wrong_string(&sent), ""),
            3,
            Failed,
        ),
        (&sent, eap(4, 7), 3, Failed),
        (&confirmed, eap(3, 8), 2, Success),
        (&confirmed, eap(4, 8), 3, Failed),
        (&made(FailureResponseSent), eap(4, 8), 3, Failed),
    ];
    for (before, packet, number, stage) in rows {
        let mut peer = before.clone();
        assert_eq!(step_in(&mut peer, &packet, &RANDOM, 0), (number, vec![]));
        assert_eq!(
            peer,
            Peer {
                stage,
                ..before.clone()
            }
        );
    }
}

#[test]
fn waiting_keeps_the_request_and_c() {
    let before = made(ChallengeResponseSent);
    let packet = failure(8, 33, 691, 1, &FRESH, "once more");
    let mut peer = before.clone();
    assert_eq!(step_in(&mut peer, &packet, &[0; 16], 0), (1, vec![])); // no room is asked for
    let waiting = Peer {
        stage: Waiting,
        authenticator_challenge: FRESH,
        request: padded(&packet),
        request_len: packet.len() as u16,
        ..before
    };
    assert_eq!(peer, waiting);
    // The repeat rule is off, and so is every packet.
    for packet in [
        packet.clone(),
        first_challenge(),
        eap(4, 8),
        eap(4, 1),
        eap(3, 8),
    ] {
        assert_eq!(step(&mut peer, &packet).0, 19);
    }

    let expected = expected_response(8, 33, &FRESH, b"other");
    assert_eq!(
        supply_in(&mut peer, b"other", &HASH, 64),
        (0, expected.clone())
    );
    let mut state = Peer {
        stage: ChallengeResponseSent,
        name: padded(b"other"),
        name_len: 5,
        password_hash: HASH,
        peer_challenge: RANDOM,
        chapid: ChapId(33),
        reply: padded(&expected),
        reply_len: 64,
        ..waiting
    };
    state.expected = defined_string(&state);
    assert_eq!(peer, state);
    // Now the Failure Request is the last answered one.
    let mut again = peer.clone();
    assert_eq!(step_in(&mut again, &packet, &[0; 16], ROOM), (0, expected));
    assert_eq!(again, peer);
    assert_eq!(
        step(&mut again, &failure(8, 33, 691, 1, &FRESH, "once mora")).0,
        18
    );
    assert_eq!(
        step(&mut again, &success(9, 1, &defined_string(&peer), "")),
        (0, short(2, 9, 3))
    );
}

#[test]
fn supply_and_give_up() {
    for stage in STAGES {
        let mut peer = made(stage);
        if stage == Waiting {
            assert_eq!(supply_in(&mut peer, &[b'n'; 257], &HASH, 0).0, 23); // before 20
            assert_eq!(supply_in(&mut peer, &[b'n'; 256], &HASH, 314).0, 20);
            assert_eq!(supply_in(&mut peer, b"", &HASH, 58).0, 20);
            assert_eq!(supply_in(&mut peer.clone(), b"", &HASH, 59).0, 0);
            assert_eq!(supply_in(&mut peer.clone(), &[b'n'; 256], &HASH, 315).0, 0);
            assert_eq!(give_up(&mut peer), (3, vec![]));
            assert_eq!(
                peer,
                Peer {
                    stage: Failed,
                    ..made(Waiting)
                }
            );
        } else {
            assert_eq!(supply_in(&mut peer, &[b'n'; 257], &HASH, 0).0, 19); // before 23 and 20
            assert_eq!(give_up(&mut peer).0, 19);
        }
    }
}

#[test]
fn supply_after_a_longer_name_leaves_zeros() {
    let mut peer = made(Waiting);
    peer.name = [b'x'; 256];
    peer.name_len = 256;
    peer.reply = [b'y'; 315];
    peer.reply_len = 315;
    let (_, written) = supply_in(&mut peer, b"n", &HASH, ROOM);
    assert_eq!((peer.name, peer.name_len), (padded(b"n"), 1));
    assert_eq!((peer.reply, peer.reply_len), (padded(&written), 60));
}

#[test]
fn repeat_rule() {
    let sent = made(ChallengeResponseSent);
    let bare = success_and(8, 9, &defined_string(&sent), "");
    let mut confirmed = sent.clone();
    assert_eq!(step(&mut confirmed, &bare).0, 0);
    // With a tail it is another Request under the same Identifier, which this stage does not take.
    let tailed = success(8, 9, &defined_string(&sent), "");
    assert_eq!(step(&mut confirmed, &tailed).0, 19);
    let rows = [
        (confirmed, bare),
        (sent.clone(), first_challenge()),
        (
            made(SuccessResponseSent),
            success(8, 9, &defined_string(&sent), ""),
        ),
        (made(FailureResponseSent), failure(8, 9, 691, 0, &FRESH, "")),
    ];
    for (before, packet) in rows {
        let mut peer = before.clone();
        let reply = before.reply[..usize::from(before.reply_len)].to_vec();
        // Another peer challenge, and padding of any kind, make no difference.
        assert_eq!(
            step_in(&mut peer, &packet, &[0; 16], reply.len()),
            (0, reply.clone())
        );
        for padding in [&b"padding"[..], b" M="] {
            let padded = [&packet[..], padding].concat();
            assert_eq!(
                step_in(&mut peer, &padded, &[1; 16], ROOM),
                (0, reply.clone())
            );
        }
        assert_eq!(step_in(&mut peer, &packet, &[0; 16], reply.len() - 1).0, 20);
        assert_eq!(step_in(&mut peer, &packet, &[0; 16], 0).0, 20);
        assert_eq!(peer, before);
        // A packet that doesn't read comes first.
        assert_eq!(step(&mut peer, &packet[..packet.len() - 1]).0, 11);
    }
    // Elsewhere the rule is off.
    let mut ended = made(Success);
    assert_eq!(
        step(&mut ended, &success(8, 9, &defined_string(&sent), "")).0,
        19
    );
    // Only the last request counts.
    assert_eq!(
        step(&mut made(SuccessResponseSent), &first_challenge()).0,
        19
    );
    // In BEGIN a Challenge is no repeat, whatever is stored.
    let mut handed = Peer {
        stage: Begin,
        ..made(ChallengeResponseSent)
    };
    assert_eq!(
        step_in(&mut handed, &first_challenge(), &[5; 16], ROOM).0,
        0
    );
    assert_eq!(handed.peer_challenge, [5; 16]);
}

#[test]
fn wrong_identifiers() {
    let sent = made(ChallengeResponseSent);
    let requests = [
        success(7, 9, &defined_string(&sent), ""),
        success(7, 9, &wrong_string(&sent), ""),
        success_and(7, 9, &defined_string(&sent), ""),
        failure(7, 9, 691, 0, &FRESH, ""),
        failure(7, 9, 691, 1, &FRESH, ""),
    ];
    for packet in requests {
        assert_eq!(step_in(&mut sent.clone(), &packet, &RANDOM, 0).0, 18); // before 20 and 3
    }
    for id in 0..=255 {
        let number = |last: u8, taken: u8| if id == last { taken } else { 18 };
        assert_eq!(step(&mut sent.clone(), &eap(4, id)).0, number(7, 3));
        assert_eq!(
            step(&mut made(SuccessResponseSent), &eap(3, id)).0,
            number(8, 2)
        );
        assert_eq!(
            step(&mut made(SuccessResponseSent), &eap(4, id)).0,
            number(8, 3)
        );
        assert_eq!(
            step(&mut made(FailureResponseSent), &eap(4, id)).0,
            number(8, 3)
        );
        // 19 before 18.
        assert_eq!(step(&mut sent.clone(), &eap(3, id)).0, 19);
        assert_eq!(step(&mut made(FailureResponseSent), &eap(3, id)).0, 19);
        assert_eq!(step(&mut fresh(), &eap(4, id)).0, 19);
        let other = challenge(id, 9, &AUTHENTICATOR, b"other");
        assert_eq!(step_in(&mut sent.clone(), &other, &RANDOM, 0).0, 19);
        // Any other Identifier is a new request, lower or higher.
        let packet = failure(id, 9, 691, 0, &FRESH, "");
        assert_eq!(
            step(&mut sent.clone(), &packet).0,
            if id == 7 { 18 } else { 0 }
        );
        // BEGIN has answered nothing.
        assert_eq!(
            step(&mut fresh(), &challenge(id, 9, &AUTHENTICATOR, b"s")).0,
            0
        );
    }
}

#[test]
fn room_for_a_response() {
    for (size, needed) in [(0, 59), (8, 67), (256, 315)] {
        let (_, peer) = Peer::new(&vec![b'n'; size], &HASH);
        for room in [0, 6, needed - 1] {
            assert_eq!(
                step_in(&mut peer.clone(), &first_challenge(), &RANDOM, room).0,
                20
            );
        }
        let (number, written) = step_in(&mut peer.clone(), &first_challenge(), &RANDOM, needed);
        assert_eq!((number, written.len()), (0, needed));
    }
}

#[test]
fn lengths_past_their_arrays() {
    let mut peer = fresh();
    peer.name = [b'n'; 256];
    peer.name[2] = b'\\';
    peer.name_len = 60_000;
    let before = peer.clone();
    let expected = expected_response(7, 9, &AUTHENTICATOR, &before.name);
    assert_eq!(step_in(&mut peer, &first_challenge(), &RANDOM, 314).0, 20);
    assert_eq!(step(&mut peer, &first_challenge()), (0, expected));
    assert_eq!((peer.name, peer.name_len), (before.name, 60_000)); // nothing normalised
    let packet = success(1, 1, &defined_string(&peer), "");
    assert_eq!(step(&mut peer, &packet).0, 0);
    assert_eq!(peer.name_len, 60_000);

    // A stored reply of 315 octets, and a stored request of 1,020.
    let request = challenge(9, 9, &AUTHENTICATOR, &[b's'; 994]);
    let mut handed = made(ChallengeResponseSent);
    handed.request = padded(&request);
    handed.request_len = 1021;
    handed.reply = std::array::from_fn(|i| i as u8);
    handed.reply_len = 316;
    assert_eq!(step(&mut handed, &request), (0, handed.reply.to_vec()));
    assert_eq!(step_in(&mut handed, &request, &RANDOM, 314).0, 20);
    handed.reply_len = 0;
    assert_eq!(step_in(&mut handed, &request, &RANDOM, 0), (0, vec![]));
}

#[test]
fn requests_too_short_for_their_numbers() {
    for length in [0, 1, 2, 6, 7] {
        let mut peer = made(ChallengeResponseSent);
        peer.request_len = length;
        let last = if length < 2 { 0 } else { 7 };
        assert_eq!(step(&mut peer.clone(), &eap(4, last)).0, 3);
        assert_eq!(step(&mut peer.clone(), &eap(4, last ^ 7)).0, 18);
        assert_eq!(
            step(&mut peer.clone(), &failure(last, 9, 691, 0, &FRESH, "")).0,
            18
        );
        assert_eq!(step(&mut peer.clone(), &first_challenge()).0, 19); // no repeat

        let mut waiting = made(Waiting);
        waiting.request_len = length;
        let id = if length < 2 { 0 } else { 8 };
        let chapid = if length < 7 { 0 } else { 33 };
        let expected = expected_response(id, chapid, &FRESH, b"n");
        assert_eq!(supply_in(&mut waiting, b"n", &HASH, ROOM), (0, expected));
        assert_eq!(waiting.chapid, ChapId(chapid));
    }
    // A stored request that only begins with the packet is another one.
    let mut longer = made(ChallengeResponseSent);
    longer.request_len += 1;
    assert_eq!(step(&mut longer, &first_challenge()).0, 19);
}

fn any_name(random: &mut Random) -> Vec<u8> {
    let (size, domain) = (random.below(12), random.below(2));
    let user = random.octets(size);
    if domain == 1 {
        [b"CAMP\\", &user[..]].concat()
    } else {
        user
    }
}

/// A Response to that request is outstanding: the kept string is the defined one, also after a
/// repeat and refused calls.
fn assert_outstanding(peer: &mut Peer, request: &[u8]) {
    assert_eq!(peer.stage, ChallengeResponseSent);
    let (id, string) = (last(peer), defined_string(peer));
    assert_eq!(peer.expected, string);
    assert_eq!(step_in(peer, request, &[0; 16], ROOM).0, 0);
    assert_eq!(step(peer, &request[..8]).0, 11);
    assert_eq!(step(peer, &success(id, 9, &string, "")).0, 18);
    assert_eq!(
        step_in(peer, &success(50, 9, &string, ""), &RANDOM, 5).0,
        20
    );
    assert_eq!(supply_in(peer, b"other", &[1; 16], ROOM).0, 19);
    assert_eq!(give_up(peer).0, 19);
    assert_eq!((peer.expected, defined_string(peer)), (string, string));
}

#[test]
fn the_string_is_kept_over_logins_with_retries() {
    let mut random = Random(4);
    for _ in 0..50 {
        let (_, mut peer) = Peer::new(&any_name(&mut random), &random.array());
        assert_eq!(peer.expected, [0; 20]);
        let mut request = challenge(0, 9, &random.array(), b"server");
        assert_eq!(step_in(&mut peer, &request, &random.array(), ROOM).0, 0);
        for id in 1..4 {
            assert_outstanding(&mut peer, &request);
            request = failure(id, 9, 691, 1, &random.array(), "");
            assert_eq!(step_in(&mut peer, &request, &random.array(), ROOM).0, 1);
            let (name, hash) = (any_name(&mut random), random.array());
            let said = supply_with(&mut peer, &name, &hash, &random.array(), ROOM);
            assert_eq!(said.0, 0);
        }
        assert_outstanding(&mut peer, &request);
        let right = success(4, 9, &defined_string(&peer), "");
        assert_eq!(step(&mut peer, &right), (0, short(2, 4, 3)));
    }
}

#[test]
fn only_a_response_sets_the_string() {
    let kept = [7; 20];
    let mut taken = 0;
    for stage in STAGES {
        let before = Peer {
            expected: kept,
            ..made(stage)
        };
        let mut packets = every_kind(&before, &kept);
        packets.push(before.request[..usize::from(before.request_len)].to_vec()); // a repeat
        for packet in packets {
            let mut peer = before.clone();
            let (number, _) = step(&mut peer, &packet);
            let expected = if stage == Begin && number == 0 {
                defined_string(&peer)
            } else {
                kept
            };
            assert_eq!(peer.expected, expected, "{stage:?} {packet:?}");
            taken += usize::from(number < 10);
        }
        let mut peer = before.clone();
        taken += usize::from(give_up(&mut peer).0 == 3);
        assert_eq!(peer.expected, kept);
    }
    assert_eq!(taken, 11 + 3 + 1); // the stage table, the repeats, giving up
}

#[test]
fn a_response_without_room_leaves_the_string() {
    let kept = [7; 20];
    let mut begin = Peer {
        expected: kept,
        ..fresh()
    };
    let mut waiting = Peer {
        expected: kept,
        ..made(Waiting)
    };
    for room in 0..67 {
        assert_eq!(step_in(&mut begin, &first_challenge(), &RANDOM, room).0, 20);
        assert_eq!(supply_in(&mut waiting, NAME, &[1; 16], room).0, 20);
        assert_eq!((begin.expected, waiting.expected), (kept, kept));
    }
    assert_eq!(step_in(&mut begin, &first_challenge(), &RANDOM, 67).0, 0);
    assert_eq!(supply_in(&mut waiting, NAME, &[1; 16], 67).0, 0);
    assert_eq!(begin.expected, defined_string(&begin));
    assert_eq!(waiting.expected, defined_string(&waiting));
}

#[test]
fn the_right_string_of_a_state_handed_in_is_the_kept_one() {
    let sent = made(ChallengeResponseSent);
    let with_other_fields = Peer {
        name: padded(b"A\\other"),
        name_len: 7,
        password_hash: [1; 16],
        authenticator_challenge: [3; 16],
        peer_challenge: [2; 16],
        reply: [0; 315],
        reply_len: 0,
        ..sent.clone()
    };
    let strings = [[0; 20], [0xff; 20], *b"some other 20 octets"];
    let with_other_strings = strings.map(|expected| Peer {
        expected,
        ..sent.clone()
    });
    for before in [&[with_other_fields][..], &with_other_strings].concat() {
        let stage_after = |string: &[u8; 20]| {
            let mut peer = before.clone();
            let (number, _) = step(&mut peer, &success(8, 9, string, ""));
            (number, peer.stage)
        };
        let ended = (3, Failed);
        assert_eq!(stage_after(&before.expected), (0, SuccessResponseSent));
        assert_eq!(stage_after(&defined_string(&before)), ended);
        for bit in 0..160 {
            assert_eq!(stage_after(&with_other_bit(&before.expected, bit)), ended);
        }
    }
}

/// The number, and where the step says that the text lies.
fn told(before: &Peer, packet: &[u8], room: usize) -> (u8, Place) {
    let mut buffer = vec![0; room];
    let ((number, _), text) = before.clone().step(packet, &RANDOM, &mut buffer);
    (number, text)
}

#[test]
fn the_text_of_an_answered_request() {
    let sent = made(ChallengeResponseSent);
    let right = defined_string(&sent);
    let rows = [
        (success(8, 9, &right, "Willkommen"), 0, (54, 10)),
        (success(8, 9, &right, ""), 0, (54, 0)),
        (success_and(8, 9, &right, ""), 0, (51, 0)),
        (success(8, 9, &wrong_string(&sent), "Servus"), 3, (54, 6)),
        (success_and(8, 9, &wrong_string(&sent), ""), 3, (51, 0)),
        (failure(8, 9, 691, 0, &FRESH, "no"), 0, (60, 2)),
        (failure(8, 9, 7, 0, &FRESH, " M="), 0, (58, 3)),
        (failure(8, 9, 691, 1, &FRESH, "once more"), 1, (60, 9)),
        (failure(8, 9, 9_999_999_999, 1, &FRESH, ""), 1, (67, 0)),
    ];
    for (packet, number, text) in rows {
        assert_eq!(told(&sent, &packet, ROOM), (number, text));
        let padded = [&packet[..], b" M=padding"].concat();
        assert_eq!(told(&sent, &padded, ROOM), (number, text));
        // Without room, where room is asked for; then under the last Identifier, and in BEGIN.
        let refused = if number == 0 { 20 } else { number };
        let text = if number == 0 { (0, 0) } else { text };
        assert_eq!(told(&sent, &packet, 5), (refused, text));
        let mut same = packet.clone();
        same[1] = 7;
        assert_eq!(told(&sent, &same, ROOM), (18, (0, 0)));
        assert_eq!(told(&fresh(), &packet, ROOM), (19, (0, 0)));
        assert_eq!(told(&sent, &packet[..packet.len() - 1], ROOM), (11, (0, 0)));
    }
}

#[test]
fn the_text_of_a_request_that_comes_again() {
    let sent = made(ChallengeResponseSent);
    let right = defined_string(&sent);
    let rows = [
        (success(8, 9, &right, "Willkommen"), (54, 10)),
        (success_and(8, 9, &right, ""), (51, 0)),
        (failure(8, 9, 691, 0, &FRESH, "no"), (60, 2)),
    ];
    for (packet, text) in rows {
        let mut peer = sent.clone();
        assert_eq!(step(&mut peer, &packet).0, 0);
        assert_eq!(told(&peer, &packet, 6), (0, text));
        let padded = [&packet[..], b" M=padding"].concat();
        assert_eq!(told(&peer, &padded, 6), (0, text));
        assert_eq!(told(&peer, &packet, 5), (20, (0, 0)));
    }
    // The Failure Request that a supply has answered.
    let packet = failure(8, 33, 691, 1, &FRESH, "again");
    let mut peer = made(Waiting);
    assert_eq!(told(&peer, &packet, ROOM), (19, (0, 0)));
    assert_eq!(supply_in(&mut peer, b"n", &HASH, ROOM).0, 0);
    assert_eq!(told(&peer, &packet, 60), (0, (60, 5)));
    assert_eq!(told(&peer, &packet, 59), (20, (0, 0)));
}

#[test]
fn no_text_of_other_packets() {
    let sent = made(ChallengeResponseSent);
    let confirmed = made(SuccessResponseSent);
    assert_eq!(told(&fresh(), &first_challenge(), ROOM), (0, (0, 0)));
    assert_eq!(told(&sent, &first_challenge(), ROOM), (0, (0, 0)));
    assert_eq!(told(&sent, &eap(4, 7), ROOM), (3, (0, 0)));
    assert_eq!(told(&confirmed, &eap(3, 8), ROOM), (2, (0, 0)));
    assert_eq!(told(&confirmed, &eap(4, 8), ROOM), (3, (0, 0)));
    assert_eq!(told(&confirmed, &eap(3, 7), ROOM), (18, (0, 0)));
}
