//! Numbers may come: a `match` from outside the crate has a last arm. Here each lists all variants
//! that there are, and the last arm would be an error if it could not be reached.
#![deny(unreachable_patterns)]

use zirgumtak::*;

fn answer(answer: Answer) -> u8 {
    match answer {
        Answer::Written(_) => 0,
        Answer::NeedsCredentials => 1,
        Answer::Authenticated(_) => 2,
        Answer::Ended(_) => 3,
        _ => 255,
    }
}

fn refusal(refusal: Refusal) -> u8 {
    match refusal {
        Refusal::Short => 10,
        Refusal::BadLength => 11,
        Refusal::TooLong => 12,
        Refusal::BadCode => 13,
        Refusal::BadType => 14,
        Refusal::BadOpCode => 15,
        Refusal::BadMsLength => 16,
        Refusal::BadForm => 17,
        Refusal::WrongIdentifier => 18,
        Refusal::NotTaken => 19,
        Refusal::NoRoom => 20,
        Refusal::BadTable => 21,
        Refusal::SameChallenge => 22,
        Refusal::BadArgument => 23,
        _ => 255,
    }
}

fn peer_stage(stage: PeerStage) -> u8 {
    match stage {
        PeerStage::Begin => 0,
        PeerStage::ChallengeResponseSent => 1,
        PeerStage::SuccessResponseSent => 2,
        PeerStage::FailureResponseSent => 3,
        PeerStage::Waiting => 4,
        PeerStage::Success => 5,
        PeerStage::Failed => 6,
        _ => 255,
    }
}

fn server_stage(stage: ServerStage) -> u8 {
    match stage {
        ServerStage::Begin => 0,
        ServerStage::ChallengeSent => 1,
        ServerStage::SuccessRequestSent => 2,
        ServerStage::FailureRequestSent => 3,
        ServerStage::Success => 4,
        ServerStage::Failed => 5,
        _ => 255,
    }
}

fn kind(packet: Packet) -> u8 {
    match packet {
        Packet::Challenge { .. } => 0,
        Packet::Response { .. } => 1,
        Packet::SuccessRequest { .. } => 2,
        Packet::FailureRequest { retry: false, .. } => 3,
        Packet::FailureRequest { retry: true, .. } => 4,
        Packet::SuccessResponse => 5,
        Packet::FailureResponse => 6,
        Packet::EapSuccess => 7,
        Packet::EapFailure => 8,
        _ => 255,
    }
}

type Writer = dyn Fn(&mut [u8]) -> Result<&[u8], Refusal>;

#[test]
fn packets_have_their_kinds() {
    const ID: ChapId = ChapId(1);
    let writers: [&Writer; 9] = [
        &|out| write_challenge(1, ID, &[0; 16], b"n", out),
        &|out| write_response(1, ID, &[0; 16], &[0; 24], b"", out),
        &|out| write_success_request(1, ID, &[0; 20], b"", out),
        &|out| write_failure_request(1, ID, 0, false, &[0; 16], b"", out),
        &|out| write_failure_request(1, ID, 0, true, &[0; 16], b"", out),
        &|out| write_success_response(1, out),
        &|out| write_failure_response(1, out),
        &|out| write_eap_success(1, out),
        &|out| write_eap_failure(1, out),
    ];
    for (number, write) in (0..).zip(writers) {
        let mut room = [0; 100];
        let packet = write(&mut room).unwrap();
        let end = if packet[0] == 2 {
            End::Server
        } else {
            End::Peer
        };
        assert_eq!(kind(read(end, packet).unwrap().packet), number);
    }
}

#[test]
fn answers_and_refusals_have_their_numbers() {
    for one in [
        Answer::Written(&[]),
        Answer::NeedsCredentials,
        Answer::Authenticated(&[]),
        Answer::Ended(&[]),
    ] {
        assert_eq!(one.number(), answer(one));
    }
    assert!(Refusal::ALL.iter().map(|one| one.number()).eq(10..=23));
    for one in Refusal::ALL {
        assert_eq!(one.number(), refusal(*one));
    }
}

/// Octet 0 of a state is its stage; one that is unknown is FAILED.
#[test]
fn stages_have_their_octets() {
    for octet in 0..=255 {
        let peer = Peer::from_octets([octet; Peer::OCTETS]);
        assert_eq!(peer_stage(peer.stage()), octet.min(6));
        let server = Server::from_octets([octet; Server::OCTETS]);
        assert_eq!(server_stage(server.stage()), octet.min(5));
    }
}
