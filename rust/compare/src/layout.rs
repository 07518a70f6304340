//! The second program's states and readings as octets: the layouts of `zirgumtak.h`.

use second::{ChapId, Identifier, Packet, Peer, PeerStage, Place, Server, ServerStage};

pub const PEER: usize = 1667;
pub const SERVER: usize = 304;
pub const READING: usize = 25;

/// Where the fields begin that tests write to.
pub mod at {
    pub const STAGE: usize = 0;
    pub const PEER_CHAPID: usize = 1;
    pub const PEER_NAME_LENGTH: usize = 2;
    pub const PEER_REQUEST_LENGTH: usize = 4;
    pub const PEER_REPLY_LENGTH: usize = 6;
    pub const PEER_REQUEST: usize = 312;
    pub const PEER_EXPECTED: usize = 1647;
    pub const SERVER_ID: usize = 1;
    pub const SERVER_CHAPID: usize = 2;
    pub const SERVER_RETRIES: usize = 3;
    pub const SERVER_REQUEST_LENGTH: usize = 4;
    pub const SERVER_CHALLENGE: usize = 6;
}

const PEER_STAGES: [PeerStage; 7] = [
    PeerStage::Begin,
    PeerStage::ChallengeResponseSent,
    PeerStage::SuccessResponseSent,
    PeerStage::FailureResponseSent,
    PeerStage::Waiting,
    PeerStage::Success,
    PeerStage::Failed,
];

const SERVER_STAGES: [ServerStage; 6] = [
    ServerStage::Begin,
    ServerStage::ChallengeSent,
    ServerStage::SuccessRequestSent,
    ServerStage::FailureRequestSent,
    ServerStage::Success,
    ServerStage::Failed,
];

/// The peer of any octets: a stage that is none reads as FAILED.
pub fn peer_of(octets: &[u8; PEER]) -> Peer {
    let mut fields = Fields(octets);
    let stage = stage_of(&PEER_STAGES, fields.octet());
    let chapid = ChapId(fields.octet());
    let [name_len, request_len, reply_len] = [fields.length(), fields.length(), fields.length()];
    Peer {
        stage,
        chapid,
        name_len,
        request_len,
        reply_len,
        password_hash: fields.array(),
        authenticator_challenge: fields.array(),
        peer_challenge: fields.array(),
        name: fields.array(),
        request: fields.array(),
        reply: fields.array(),
        expected: fields.array(),
    }
}

pub fn put_peer(peer: &Peer, octets: &mut [u8; PEER]) {
    let mut room = Room(octets);
    room.put(&[octet_of(&PEER_STAGES, peer.stage), peer.chapid.0]);
    for length in [peer.name_len, peer.request_len, peer.reply_len] {
        room.put(&length.to_le_bytes());
    }
    room.put(&peer.password_hash);
    room.put(&peer.authenticator_challenge);
    room.put(&peer.peer_challenge);
    room.put(&peer.name);
    room.put(&peer.request);
    room.put(&peer.reply);
    room.put(&peer.expected);
    assert!(room.0.is_empty());
}

/// The server of any octets: a stage that is none reads as FAILED.
pub fn server_of(octets: &[u8; SERVER]) -> Server {
    let mut fields = Fields(octets);
    Server {
        stage: stage_of(&SERVER_STAGES, fields.octet()),
        id: Identifier(fields.octet()),
        chapid: ChapId(fields.octet()),
        retries: fields.octet(),
        request_len: fields.length(),
        challenge: fields.array(),
        request: fields.array(),
    }
}

pub fn put_server(server: &Server, octets: &mut [u8; SERVER]) {
    let mut room = Room(octets);
    let stage = octet_of(&SERVER_STAGES, server.stage);
    room.put(&[stage, server.id.0, server.chapid.0, server.retries]);
    room.put(&server.request_len.to_le_bytes());
    room.put(&server.challenge);
    room.put(&server.request);
    assert!(room.0.is_empty());
}

/// The kinds have the header's order.
pub fn put_reading(packet: &Packet, octets: &mut [u8; READING]) {
    let mut room = Room(octets);
    room.put(&[packet.kind as u8, packet.id.0, packet.chapid.0]);
    room.put(&(packet.length as u16).to_le_bytes());
    room.put(&packet.code.to_le_bytes());
    for (start, length) in [packet.challenge_at, packet.response_at, packet.tail] {
        room.put(&(start as u16).to_le_bytes());
        room.put(&(length as u16).to_le_bytes());
    }
    assert!(room.0.is_empty());
}

/// What a reading's octets say.
#[derive(Clone, Copy, PartialEq, Eq, Debug)]
pub struct Reading {
    pub kind: u8,
    pub id: u8,
    pub chapid: u8,
    pub length: u16,
    pub code: u64,
    /// The challenge, the NT-Response or string, the name or text.
    pub places: [Place; 3],
}

pub fn reading_of(octets: &[u8; READING]) -> Reading {
    let mut fields = Fields(octets);
    let [kind, id, chapid] = fields.array();
    let (length, code) = (fields.length(), u64::from_le_bytes(fields.array()));
    let places = [(); 3].map(|()| (fields.length().into(), fields.length().into()));
    Reading {
        kind,
        id,
        chapid,
        length,
        code,
        places,
    }
}

/// The last stage of both ends is FAILED.
fn stage_of<T: Copy>(stages: &[T], octet: u8) -> T {
    stages[usize::from(octet).min(stages.len() - 1)]
}

fn octet_of<T: PartialEq>(stages: &[T], stage: T) -> u8 {
    let place = stages.iter().position(|each| *each == stage);
    place.expect("every stage is listed") as u8
}

/// The octets not yet read.
struct Fields<'a>(&'a [u8]);

impl Fields<'_> {
    fn array<const N: usize>(&mut self) -> [u8; N] {
        let (first, rest) = self.0.split_first_chunk().expect("within the layout");
        self.0 = rest;
        *first
    }

    fn octet(&mut self) -> u8 {
        self.array::<1>()[0]
    }

    fn length(&mut self) -> u16 {
        u16::from_le_bytes(self.array())
    }
}

/// The octets not yet written.
struct Room<'a>(&'a mut [u8]);

impl Room<'_> {
    fn put(&mut self, octets: &[u8]) {
        let (first, rest) = std::mem::take(&mut self.0).split_at_mut(octets.len());
        first.copy_from_slice(octets);
        self.0 = rest;
    }
}

#[cfg(test)]
mod tests {
    use second::Kind;

    use super::*;
    use crate::random::Random;

    /// The offsets of `zirgumtak.h`.
    #[test]
    fn fields_stand_where_the_header_says() {
        let mut random = Random::new(1, 0, 0);
        let octets: [u8; PEER] = random.array();
        let peer = peer_of(&octets);
        assert_eq!(peer.chapid.0, octets[1]);
        assert_eq!(peer.name_len.to_le_bytes(), octets[2..4]);
        assert_eq!(peer.request_len.to_le_bytes(), octets[4..6]);
        assert_eq!(peer.reply_len.to_le_bytes(), octets[6..8]);
        assert_eq!(peer.password_hash, octets[8..24]);
        assert_eq!(peer.authenticator_challenge, octets[24..40]);
        assert_eq!(peer.peer_challenge, octets[40..56]);
        assert_eq!(peer.name, octets[56..312]);
        assert_eq!(peer.request, octets[312..1332]);
        assert_eq!(peer.reply, octets[1332..1647]);
        assert_eq!(peer.expected, octets[1647..1667]);

        let octets: [u8; SERVER] = random.array();
        let server = server_of(&octets);
        assert_eq!((server.id.0, server.chapid.0), (octets[1], octets[2]));
        assert_eq!(server.retries, octets[3]);
        assert_eq!(server.request_len.to_le_bytes(), octets[4..6]);
        assert_eq!(server.challenge, octets[6..22]);
        assert_eq!(server.request, octets[22..304]);
    }

    /// The offsets and kinds of `zirgumtak.h`.
    #[test]
    fn readings_stand_where_the_header_says() {
        let kinds = [
            Kind::Challenge,
            Kind::Response,
            Kind::SuccessRequest,
            Kind::FailureRequest,
            Kind::RetryRequest,
            Kind::SuccessResponse,
            Kind::FailureResponse,
            Kind::EapSuccess,
            Kind::EapFailure,
        ];
        for (octet, kind) in (0..).zip(kinds) {
            let packet = Packet {
                kind,
                id: Identifier(0x11),
                chapid: ChapId(0x22),
                length: 0x0304,
                code: 0x0807_0605_0403_0201,
                challenge: [0xff; 16],
                challenge_at: (0x0102, 0x0304),
                response: [0xff; 24],
                string: [0xff; 20],
                response_at: (0x0506, 0x0708),
                tail: (0x090a, 0x0b0c),
            };
            let mut octets = [0; READING];
            put_reading(&packet, &mut octets);
            assert_eq!(octets[..5], [octet, 0x11, 0x22, 4, 3]);
            assert_eq!(octets[5..13], [1, 2, 3, 4, 5, 6, 7, 8]);
            assert_eq!(octets[13..21], [2, 1, 4, 3, 6, 5, 8, 7]);
            assert_eq!(octets[21..], [0x0a, 9, 0x0c, 0x0b]);
            let reading = Reading {
                kind: octet,
                id: 0x11,
                chapid: 0x22,
                length: 0x0304,
                code: packet.code,
                places: [packet.challenge_at, packet.response_at, packet.tail],
            };
            assert_eq!(reading_of(&octets), reading);
        }
    }

    /// Only a stage that is none comes back as another octet.
    #[test]
    fn octets_come_back() {
        let mut random = Random::new(2, 0, 0);
        for stage in 0..=255 {
            let mut octets: [u8; PEER] = random.array();
            octets[0] = stage;
            let mut back = [0; PEER];
            put_peer(&peer_of(&octets), &mut back);
            octets[0] = stage.min(6);
            assert_eq!(back, octets);

            let mut octets: [u8; SERVER] = random.array();
            octets[0] = stage;
            let mut back = [0; SERVER];
            put_server(&server_of(&octets), &mut back);
            octets[0] = stage.min(5);
            assert_eq!(back, octets);
        }
    }
}
