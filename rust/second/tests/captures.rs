//! Conversations of wpa_supplicant with hostapd and with FreeRADIUS, replayed at both ends.

mod common;

use common::*;
use second::*;

struct Conversation {
    user: String,
    hash: Octets16,
    right: bool,
    packets: Vec<(String, Vec<u8>)>,
}

impl Conversation {
    /// FreeRADIUS asked for another password, and wpa_supplicant left.
    fn asked_again(&self) -> bool {
        self.packets.len() == 4
    }
}

fn conversations() -> Vec<Conversation> {
    let mut all: Vec<Conversation> = Vec::new();
    let mut right = false;
    let mut fresh = false;
    let files = [
        include_str!("captures.txt"),
        include_str!("captures-keys.txt"),
    ];
    for line in files.iter().flat_map(|file| file.lines()) {
        if let Some(comment) = line.strip_prefix("# conversation") {
            right = !comment.ends_with("wrong password");
            fresh = true;
            continue;
        }
        let parts: Vec<&str> = line.split(" | ").collect();
        if line.is_empty() || line.starts_with('#') || parts[2] == "key" {
            continue;
        }
        if fresh {
            all.push(Conversation {
                user: parts[0].to_string(),
                hash: mschap::password_hash(&units(parts[1])).unwrap(),
                right,
                packets: Vec::new(),
            });
            fresh = false;
        }
        all.last_mut()
            .unwrap()
            .packets
            .push((parts[2].to_string(), hex(parts[3])));
    }
    all
}

#[test]
fn every_packet_reads() {
    let mut read = 0;
    for conversation in conversations() {
        for (i, (sender, packet)) in conversation.packets.iter().enumerate() {
            let end = if sender == "peer" {
                End::Server
            } else {
                End::Peer
            };
            let result = packet::read(end, packet);
            if i == 0 {
                assert_eq!(result, Err(14)); // EAP Identity
            } else {
                assert_eq!(result.unwrap().length, packet.len());
                read += 1;
            }
        }
    }
    assert_eq!(read, 73);
}

/// What the servers wrote after `M=`; FreeRADIUS ends a Success message with its digits.
#[test]
fn the_text_is_what_was_captured() {
    let mut texts = Vec::new();
    for conversation in conversations() {
        let (_, packet) = &conversation.packets[3];
        let (start, length) = packet::read(End::Peer, packet).unwrap().text();
        assert_eq!(start + length, packet.len());
        texts.push(packet[start..].to_vec());
    }
    for (text, times) in [
        ("OK", 8),
        ("", 3),
        ("FAILED", 3),
        ("Authentication rejected", 1),
    ] {
        let found = texts.iter().filter(|found| *found == text.as_bytes());
        assert_eq!(found.count(), times, "{text}");
    }
}

#[test]
fn the_peer_says_what_was_captured() {
    let mut right = 0;
    for conversation in conversations() {
        let packets: Vec<&[u8]> = conversation.packets.iter().map(|(_, p)| &p[..]).collect();
        let peer_challenge = packet::read(End::Server, packets[2]).unwrap().challenge;
        let (answer, mut peer) = Peer::new(conversation.user.as_bytes(), &conversation.hash);
        assert_eq!(answer, (0, 0));

        let said = step_in(&mut peer, packets[1], &peer_challenge, ROOM);
        assert_eq!(said, (0, packets[2].to_vec()));
        let said = step(&mut peer, packets[3]);
        if conversation.asked_again() {
            assert_eq!((said, peer.stage), ((1, vec![]), PeerStage::Waiting));
            continue;
        }
        assert_eq!(said, (0, packets[4].to_vec()));
        let expected = if conversation.right {
            (2, PeerStage::Success)
        } else {
            (3, PeerStage::Failed)
        };
        assert_eq!(step(&mut peer, packets[5]), (expected.0, vec![]));
        assert_eq!(peer.stage, expected.1);
        right += usize::from(conversation.right);
    }
    assert_eq!(right, 11);
}

#[test]
fn the_server_judges_what_was_captured() {
    for conversation in conversations() {
        let packets: Vec<&[u8]> = conversation.packets.iter().map(|(_, p)| &p[..]).collect();
        let sent = packet::read(End::Peer, packets[1]).unwrap();
        let mut server = Server::new();
        let mut buffer = [0; ROOM];
        let retries = u64::from(conversation.asked_again());
        let answer = server.start(
            sent.id,
            &sent.challenge,
            &packets[1][26..],
            retries,
            &mut buffer,
        );
        assert_eq!(
            (answer, &buffer[..answer.1]),
            ((0, packets[1].len()), packets[1])
        );

        let user = mschap::user_of(conversation.user.as_bytes()).unwrap();
        let knows = account(0, &conversation.hash, user);
        let mut twin = server.clone();
        let (number, request) = packet(&mut server, packets[2], &knows);
        assert_eq!((number, server.stage), (0, ServerStage::SuccessRequestSent));
        let request = packet::read(End::Peer, &request).unwrap();
        if conversation.right {
            let captured = packet::read(End::Peer, packets[3]).unwrap();
            assert_eq!((request.string, request.id), (captured.string, captured.id));
            assert_eq!(
                packet(&mut server, packets[4], &[]),
                (2, packets[5].to_vec())
            );
        } else {
            // What the other server knew was another password.
            let other = account(0, &HASH, user);
            let (number, request) = packet(&mut twin, packets[2], &other);
            let request = packet::read(End::Peer, &request).unwrap();
            let captured = packet::read(End::Peer, packets[3]).unwrap();
            assert_eq!(
                (number, request.kind, request.code),
                (0, captured.kind, captured.code)
            );
            if conversation.asked_again() {
                assert_eq!(twin.stage, ServerStage::ChallengeSent);
                continue;
            }
            assert_eq!(twin.stage, ServerStage::FailureRequestSent);
            assert_eq!(packet(&mut twin, packets[4], &[]), (3, packets[5].to_vec()));
        }
    }
}
