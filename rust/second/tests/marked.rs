//! The marked cases W1 to W12 of document 01.

mod common;

use common::*;
use second::*;

fn both_ends(octets: &str, number: u8) {
    for end in [End::Peer, End::Server] {
        assert_eq!(packet::read(end, &hex(octets)), Err(number));
    }
    let (_, mut peer) = Peer::new(b"frz", &HASH);
    assert_eq!(step(&mut peer, &hex(octets)).0, number);
    assert_eq!(packet(&mut Server::new(), &hex(octets), &[]).0, number);
}

fn at_the_peer(octets: &str, number: u8) {
    assert_eq!(packet::read(End::Peer, &hex(octets)), Err(number));
    let (_, mut peer) = Peer::new(b"frz", &HASH);
    assert_eq!(step(&mut peer, &hex(octets)).0, number);
}

#[test]
fn w1_to_w7() {
    both_ends("", 10);
    both_ends("01050003", 11);
    both_ends("01050005", 11);
    at_the_peer("020500061A03", 13);
    at_the_peer("01050004", 14);
    at_the_peer("010500051A", 15);
    at_the_peer("010500061A03", 16);
}

#[test]
fn w8_and_w9() {
    let expected = hex(&format!("0101001D1A0101001810{}46525A", "00".repeat(16)));
    let said = write_in(ROOM, |out| {
        packet::write_challenge(Identifier(1), ChapId(1), &[0; 16], b"FRZ", out)
    });
    assert_eq!(said, (0, expected.clone()));
    let read = packet::read(End::Peer, &expected).unwrap();
    assert_eq!(
        (read.kind, read.length, read.tail),
        (Kind::Challenge, 29, (26, 3))
    );

    at_the_peer(&format!("0101001A1A0101001510{}", "00".repeat(16)), 17);
}

#[test]
fn w10() {
    for chapid in [0, 6, 7, 8, 255] {
        let mut server = Server::new();
        server.stage = ServerStage::SuccessRequestSent;
        server.id = Identifier(7);
        server.chapid = ChapId(chapid);
        let before = server.clone();
        let said = packet_in(&mut server, &hex("020700061A03"), &[1], &[0; 16], 4);
        assert_eq!(said, (2, hex("03070004")));
        assert_eq!(
            server,
            Server {
                stage: ServerStage::Success,
                ..before
            }
        );
    }
}

#[test]
fn w11_and_w12() {
    assert_eq!(mschap::user_of(b"CAMP\\frz"), Ok(&b"frz"[..]));
    assert_eq!(mschap::user_of(b"frz\\"), Ok(&b""[..]));
    assert_eq!(mschap::user_of(b"frz"), Ok(&b"frz"[..]));
    assert_eq!(mschap::user_of(b""), Ok(&b""[..]));
    assert_eq!(mschap::user_of(b"\\"), Ok(&b""[..]));
    assert_eq!(mschap::user_of(b"A\\b\\c"), Ok(&b"b\\c"[..]));
}
