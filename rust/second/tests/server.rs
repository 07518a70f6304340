//! The server: every move, the whole state after it, 18 to 23 with their order, and states that
//! were handed in.

mod common;

use common::*;
use second::ServerStage::*;
use second::*;

const STAGES: [ServerStage; 6] = [
    Begin,
    ChallengeSent,
    SuccessRequestSent,
    FailureRequestSent,
    Success,
    Failed,
];

fn table() -> Vec<u8> {
    let mut table = record(9, b"skipped");
    table.extend(account(0, &HASH, b"frz"));
    for code in 646..=649 {
        table.extend(account(code, &HASH, code.to_string().as_bytes()));
    }
    table
}

fn reply_to(server: &Server, name: &[u8], hash: &Octets16) -> Vec<u8> {
    let user = mschap::user_of(name).unwrap();
    let nt = mschap::nt_response(&server.challenge, &RANDOM, user, hash).unwrap();
    response(server.id.0, server.chapid.0, &RANDOM, &nt, name)
}

fn right(server: &Server) -> Vec<u8> {
    reply_to(server, b"CAMP\\frz", &HASH)
}

fn wrong(server: &Server) -> Vec<u8> {
    reply_to(server, b"CAMP\\frz", &[0; 16])
}

fn string_for(server: &Server) -> [u8; 20] {
    let nt = mschap::nt_response(&server.challenge, &RANDOM, b"frz", &HASH).unwrap();
    mschap::authenticator(&HASH, &nt, &RANDOM, &server.challenge, b"frz").unwrap()
}

fn started(id: u8, retries: u64) -> Server {
    let mut server = Server::new();
    let expected = challenge(id, id, &AUTHENTICATOR, b"server");
    assert_eq!(
        start_in(&mut server, id, b"server", retries, 32),
        (0, expected)
    );
    server
}

fn made(stage: ServerStage) -> Server {
    let mut server = if stage == Begin {
        Server::new()
    } else {
        started(7, 0)
    };
    let moves = match stage {
        Begin | ChallengeSent => vec![],
        SuccessRequestSent => vec![right(&server)],
        FailureRequestSent => vec![wrong(&server)],
        Success => vec![right(&server), short(2, 8, 3)],
        Failed => vec![wrong(&server), short(2, 8, 4)],
    };
    for octets in &moves {
        assert!(packet(&mut server, octets, &table()).0 < 10);
    }
    assert_eq!(server.stage, stage);
    server
}

fn malformed() -> Vec<u8> {
    [table(), vec![0]].concat()
}

#[test]
fn made_from_nothing_and_started() {
    let zero = Server {
        stage: Begin,
        id: Identifier(0),
        chapid: ChapId(0),
        challenge: [0; 16],
        retries: 0,
        request: [0; 282],
        request_len: 0,
    };
    assert_eq!(Server::new(), zero);
    for size in [1, 6, 256] {
        let name = vec![b's'; size];
        let expected = challenge(255, 255, &AUTHENTICATOR, &name);
        let mut server = Server {
            request: [9; 282],
            ..zero.clone()
        };
        assert_eq!(start_in(&mut server, 255, &name, 10, 25 + size).0, 20);
        assert_eq!(
            start_in(&mut server, 255, &name, 10, 26 + size),
            (0, expected.clone())
        );
        let state = Server {
            stage: ChallengeSent,
            id: Identifier(255),
            chapid: ChapId(255),
            challenge: AUTHENTICATOR,
            retries: 10,
            request: padded(&expected),
            request_len: 26 + size as u16,
        };
        assert_eq!(server, state);
    }
}

#[test]
fn start_refusals() {
    let long = [b's'; 257];
    for (name, retries) in [
        (&b""[..], 0),
        (&long, 0),
        (b"s", 11),
        (b"s", 256),
        (b"s", u64::MAX),
    ] {
        let mut server = Server::new();
        assert_eq!(start_in(&mut server, 1, name, retries, 0).0, 23); // before 20
        assert_eq!(start_in(&mut server, 1, name, retries, ROOM).0, 23);
    }
    for stage in STAGES.into_iter().filter(|&stage| stage != Begin) {
        assert_eq!(start_in(&mut made(stage), 1, b"", 11, 0).0, 19); // before 23 and 20
        assert_eq!(start_in(&mut made(stage), 1, b"s", 0, ROOM).0, 19);
    }
}

#[test]
fn stage_table() {
    let mut taken = 0;
    for stage in STAGES {
        let before = made(stage);
        let id = before.id.0;
        let packets = [
            right(&before),
            wrong(&before),
            short(2, id, 3),
            short(2, id, 4),
        ];
        for (kind, octets) in packets.iter().enumerate() {
            let (expected, next) = match (stage, kind) {
                (ChallengeSent, 0) => (0, SuccessRequestSent),
                (ChallengeSent, 1) => (0, FailureRequestSent),
                (SuccessRequestSent, 2) => (2, Success),
                (FailureRequestSent, 3) => (3, Failed),
                _ => (19, stage),
            };
            let mut server = before.clone();
            let (number, _) = packet(&mut server, octets, &table());
            assert_eq!((number, server.stage), (expected, next), "{stage:?} {kind}");
            taken += usize::from(number < 10);
        }
    }
    assert_eq!(taken, 4);
}

#[test]
fn right_and_code_0() {
    for id in [7, 254, 255] {
        let before = started(id, 3);
        let next = id.wrapping_add(1);
        let expected = success(next, next, &string_for(&before), "");
        assert_eq!(expected.len(), 54);
        let mut server = before.clone();
        // 22 isn't for a Success Request; 20 is.
        let octets = right(&before);
        let stale = packet_in(&mut server, &octets, &table(), &AUTHENTICATOR, 53);
        assert_eq!(stale.0, 20);
        let said = packet_in(&mut server, &octets, &table(), &AUTHENTICATOR, 54);
        assert_eq!(said, (0, expected.clone()));
        let state = Server {
            stage: SuccessRequestSent,
            id: Identifier(next),
            chapid: ChapId(next),
            request: padded(&expected),
            request_len: 54,
            ..before
        };
        assert_eq!(server, state);
    }
}

/// The state after a Failure Request.
fn failed(before: &Server, stage: ServerStage, retries: u8, request: &[u8]) -> Server {
    Server {
        stage,
        id: Identifier(before.id.0.wrapping_add(1)),
        chapid: ChapId(before.id.0.wrapping_add(1)),
        challenge: FRESH,
        retries,
        request: padded(request),
        request_len: request.len() as u16,
    }
}

#[test]
fn right_and_code_not_0() {
    for code in 646..=649 {
        let before = started(255, 3);
        let octets = reply_to(&before, format!("D\\{code}").as_bytes(), &HASH);
        let expected = failure(0, 0, code, 0, &FRESH, "");
        assert_eq!(expected.len(), 60);
        let mut server = before.clone();
        assert_eq!(
            packet(&mut server, &octets, &table()),
            (0, expected.clone())
        );
        assert_eq!(server, failed(&before, FailureRequestSent, 3, &expected)); // retries stay
    }
}

#[test]
fn wrong_or_no_such_account() {
    for (retries, r, left) in [(0, 0, 0), (1, 1, 0), (10, 1, 9)] {
        let before = started(255, retries);
        let packets = [
            wrong(&before),
            reply_to(&before, b"nobody", &HASH),
            reply_to(&before, b"", &HASH),
            reply_to(&before, b"CAMP\\x\\frz", &HASH),
            reply_to(&before, b"647", &[0; 16]),
        ];
        for octets in packets {
            let expected = failure(0, 0, 691, r, &FRESH, "");
            let stage = if r == 1 {
                ChallengeSent
            } else {
                FailureRequestSent
            };
            let mut server = before.clone();
            assert_eq!(packet_in(&mut server, &octets, &table(), &FRESH, 59).0, 20);
            assert_eq!(
                packet_in(&mut server, &octets, &table(), &FRESH, 60),
                (0, expected.clone())
            );
            assert_eq!(server, failed(&before, stage, left, &expected));
        }
    }
}

#[test]
fn retries_run_out() {
    let mut server = started(250, 10);
    for turn in 0..10u8 {
        let octets = wrong(&server);
        let (number, _) = packet_in(&mut server, &octets, &table(), &[turn + 1; 16], 60);
        assert_eq!(
            (number, server.stage, server.retries),
            (0, ChallengeSent, 9 - turn)
        );
        assert_eq!(server.id, Identifier(251u8.wrapping_add(turn)));
    }
    let mut last = server.clone();
    let octets = wrong(&last);
    assert_eq!(packet(&mut last, &octets, &table()).0, 0);
    assert_eq!((last.stage, last.id), (FailureRequestSent, Identifier(5)));
    assert_eq!(packet(&mut last, &short(2, 5, 4), &[]), (3, eap(4, 5)));
    // Or the last try is right.
    let octets = right(&server);
    assert_eq!(packet(&mut server, &octets, &table()).0, 0);
    assert_eq!((server.stage, server.retries), (SuccessRequestSent, 0));
    assert_eq!(packet(&mut server, &short(2, 5, 3), &[]), (2, eap(3, 5)));
}

#[test]
fn ends() {
    for (stage, op, code, number, next) in [
        (SuccessRequestSent, 3, 3, 2, Success),
        (FailureRequestSent, 4, 4, 3, Failed),
    ] {
        let before = made(stage);
        for room in 0..4 {
            let mut server = before.clone();
            let said = packet_in(&mut server, &short(2, 8, op), &malformed(), &FRESH, room);
            assert_eq!(said.0, 20);
        }
        // The table and the fresh octets don't matter here: neither 21 nor 22.
        let mut server = before.clone();
        let said = packet_in(
            &mut server,
            &short(2, 8, op),
            &malformed(),
            &before.challenge,
            4,
        );
        assert_eq!(said, (number, eap(code, 8)));
        assert_eq!(
            server,
            Server {
                stage: next,
                ..before
            }
        );
    }
}

#[test]
fn wrong_identifiers() {
    let before = started(7, 1);
    let good = right(&before);
    for id in 0..=255 {
        for chapid in [6, 7, 8] {
            let mut octets = good.clone();
            octets[1] = id;
            octets[6] = chapid;
            let expected = if id == 7 && chapid == 7 { 0 } else { 18 };
            let mut server = before.clone();
            assert_eq!(packet(&mut server, &octets, &table()).0, expected);
        }
        for (stage, op, number) in [(SuccessRequestSent, 3, 2), (FailureRequestSent, 4, 3)] {
            let expected = if id == 8 { number } else { 18 };
            assert_eq!(packet(&mut made(stage), &short(2, id, op), &[]).0, expected);
            // 19 before 18.
            assert_eq!(packet(&mut made(stage), &short(2, id, 7 - op), &[]).0, 19);
        }
    }
}

#[test]
fn numbers_that_differ_are_each_compared_with_their_own() {
    let mut before = started(7, 1);
    before.chapid = ChapId(90);
    let octets = right(&before);
    assert_eq!((octets[1], octets[6]), (7, 90));
    let mut server = before.clone();
    let (number, written) = packet(&mut server, &octets, &table());
    assert_eq!((number, written[1], written[6]), (0, 8, 8));
    assert_eq!((server.id, server.chapid), (Identifier(8), ChapId(8)));
    let mut swapped = octets;
    swapped[6] = 7;
    assert_eq!(packet(&mut before, &swapped, &table()).0, 18);
}

#[test]
fn order_of_refusals() {
    let server = started(7, 1);
    let bad = malformed();
    let stale = AUTHENTICATOR;
    let try_it = |server: &Server, octets: &[u8], table: &[u8], fresh: &Octets16, room: usize| {
        packet_in(&mut server.clone(), octets, table, fresh, room).0
    };
    let mut other_id = wrong(&server);
    other_id[1] = 9;
    let mut broken = other_id.clone();
    broken[58] = 1;
    // 17 before 19: a broken Response where none is taken.
    assert_eq!(
        try_it(&made(SuccessRequestSent), &broken, &bad, &stale, 0),
        17
    );
    // 19 before 18, 21, 22 and 20.
    assert_eq!(
        try_it(&made(SuccessRequestSent), &other_id, &bad, &stale, 0),
        19
    );
    // 18 before 21, 22 and 20.
    assert_eq!(try_it(&server, &other_id, &bad, &stale, 0), 18);
    // 21 before 22 and 20.
    assert_eq!(try_it(&server, &wrong(&server), &bad, &stale, 0), 21);
    assert_eq!(try_it(&server, &right(&server), &bad, &stale, 0), 21);
    // 22 before 20, whenever a Failure Request is due.
    assert_eq!(try_it(&server, &wrong(&server), &table(), &stale, 0), 22);
    assert_eq!(try_it(&server, &wrong(&server), &table(), &stale, ROOM), 22);
    assert_eq!(
        try_it(&started(7, 0), &wrong(&server), &table(), &stale, ROOM),
        22
    );
    let barred = reply_to(&server, b"647", &HASH);
    assert_eq!(try_it(&server, &barred, &table(), &stale, ROOM), 22);
    assert_eq!(try_it(&server, &barred, &table(), &FRESH, 59), 20);
    // Neither for a right one.
    assert_eq!(try_it(&server, &right(&server), &table(), &stale, 53), 20);
    assert_eq!(try_it(&server, &right(&server), &table(), &stale, 54), 0);
    // A table over 65,536 octets.
    let huge = record(2, &[0; 32764]).repeat(3);
    assert_eq!(try_it(&server, &right(&server), &huge, &FRESH, ROOM), 21);
}

#[test]
fn resend() {
    for stage in STAGES {
        let server = made(stage);
        let stored = server.request[..usize::from(server.request_len)].to_vec();
        match stage {
            ChallengeSent | SuccessRequestSent | FailureRequestSent => {
                assert!(!stored.is_empty());
                assert_eq!(resend_in(&server, stored.len()), (0, stored.clone()));
                assert_eq!(resend_in(&server, ROOM), (0, stored.clone()));
                assert_eq!(resend_in(&server, stored.len() - 1).0, 20);
            }
            Begin | Success | Failed => {
                assert_eq!(resend_in(&server, 0).0, 19); // before 20
                assert_eq!(resend_in(&server, ROOM).0, 19);
            }
        }
    }
    // After R=1 it is the Failure Request that is outstanding.
    let mut server = started(7, 1);
    let octets = wrong(&server);
    let (_, written) = packet(&mut server, &octets, &table());
    assert_eq!(resend_in(&server, ROOM), (0, written));
    // A length past its array.
    server.request = std::array::from_fn(|i| i as u8);
    server.request_len = 283;
    assert_eq!(resend_in(&server, 282), (0, server.request.to_vec()));
    assert_eq!(resend_in(&server, 281).0, 20);
    server.request_len = 0;
    assert_eq!(resend_in(&server, 0), (0, vec![]));
}

#[test]
fn more_retries_than_a_start_gives() {
    let mut server = Server {
        retries: 255,
        ..started(7, 0)
    };
    let octets = wrong(&server);
    assert_eq!(packet(&mut server, &octets, &table()).0, 0);
    assert_eq!((server.stage, server.retries), (ChallengeSent, 254));
}
