//! The server's text, as a part of the packet that a peer takes.

use std::ptr;

use zirgumtak::*;

const CHALLENGE: Octets16 = [1; 16];
const OWN: Octets16 = [2; 16];
const C: Octets16 = [3; 16];

fn hash() -> PasswordHash {
    PasswordHash::of("clientPass").unwrap()
}

/// A peer whose Response to a Challenge of Identifier 1 is outstanding.
fn responded() -> Peer {
    let mut peer = Peer::new(b"User", &hash()).unwrap();
    let (mut request, mut reply) = ([0; 100], [0; Peer::REPLY_ROOM]);
    let challenge = write_challenge(1, ChapId(1), &CHALLENGE, b"depot", &mut request).unwrap();
    let step = peer.step(challenge, &OWN, &mut reply).unwrap();
    assert_eq!((step.number(), step.text), (0, None));
    peer
}

/// The string that the peer waits for.
fn right() -> [u8; 20] {
    let nt = nt_response(&CHALLENGE, &OWN, b"User", &hash()).unwrap();
    authenticator(&hash(), &nt, &OWN, &CHALLENGE, b"User").unwrap()
}

fn success(string: &[u8; 20], text: &[u8]) -> Vec<u8> {
    let mut room = [0; 1020];
    let packet = write_success_request(2, ChapId(2), string, text, &mut room);
    packet.unwrap().to_vec()
}

fn failure(retry: bool, text: &[u8]) -> Vec<u8> {
    let mut room = [0; 1020];
    let packet = write_failure_request(2, ChapId(2), 647, retry, &C, text, &mut room);
    packet.unwrap().to_vec()
}

/// The number of the answer and the text, or the refusal.
fn taken<'p>(
    peer: &mut Peer,
    packet: &'p [u8],
    room: usize,
) -> Result<(u8, Option<&'p [u8]>), Refusal> {
    let mut reply = vec![0; room];
    let step = peer.step(packet, &OWN, &mut reply)?;
    assert_eq!(step.packet().len(), if step.number() == 0 { 6 } else { 0 });
    Ok((step.number(), step.text))
}

#[test]
fn with_every_answer() {
    let text = b"why, in any octets: \xfc\0 M=";
    for (packet, number) in [
        (success(&right(), text), 0),
        (success(&[0; 20], text), 3),
        (failure(false, text), 0),
        (failure(true, text), 1),
    ] {
        let told = taken(&mut responded(), &packet, 6);
        assert_eq!(told, Ok((number, Some(&text[..]))));
        let (_, told) = told.unwrap();
        let place = &packet[packet.len() - text.len()..];
        assert!(ptr::eq(told.unwrap(), place), "a part of the packet");
        let padded = [&packet[..], b" M=padding"].concat();
        let told = taken(&mut responded(), &padded, 6);
        assert_eq!(told, Ok((number, Some(&text[..]))));
    }
}

#[test]
fn empty_and_longest() {
    let longest = vec![b't'; 966];
    for text in [&b""[..], &longest] {
        let packet = success(&right(), text);
        assert_eq!(taken(&mut responded(), &packet, 6), Ok((0, Some(text))));
    }
    let longest = vec![b't'; 960];
    for text in [&b""[..], &longest] {
        let packet = failure(true, text);
        assert_eq!(taken(&mut responded(), &packet, 0), Ok((1, Some(text))));
    }
    // A Success message that ends with its digits.
    let mut bare = success(&right(), b"");
    bare.truncate(51);
    (bare[3], bare[8]) = (51, 46);
    assert_eq!(taken(&mut responded(), &bare, 6), Ok((0, Some(&b""[..]))));
}

#[test]
fn again() {
    for packet in [success(&right(), b"once"), failure(false, b"once")] {
        let mut peer = responded();
        for room in [6, 6, 315] {
            let told = taken(&mut peer, &packet, room);
            assert_eq!(told, Ok((0, Some(&b"once"[..]))));
        }
        assert_eq!(taken(&mut peer, &packet, 5), Err(Refusal::NoRoom));
    }
}

#[test]
fn of_no_other_packet() {
    let mut peer = responded();
    let (wait, ended) = (failure(true, b"text"), [4, 1, 0, 4]);
    assert_eq!(taken(&mut peer.clone(), &ended, 0), Ok((3, None)));
    assert_eq!(taken(&mut peer, &wait, 0), Ok((1, Some(&b"text"[..]))));
    assert_eq!(taken(&mut peer, &wait, 0), Err(Refusal::NotTaken));
    let mut reply = [0; Peer::REPLY_ROOM];
    let supplied = peer.supply(b"User", &hash(), &OWN, &mut reply);
    assert_eq!(supplied.unwrap().packet().len(), 63);
    let mut confirmed = responded();
    let packet = success(&right(), b"");
    assert_eq!(taken(&mut confirmed, &packet, 6), Ok((0, Some(&b""[..]))));
    assert_eq!(taken(&mut confirmed, &[3, 2, 0, 4], 0), Ok((2, None)));
}
