//! Logins through the wrapper, with the octets that RFC 2759, 9.2 publishes, and its refusals.

use zirgumtak::*;

const CHALLENGE: Octets16 = *b"[]|}{?/><,`!2&&(";
const PEER_CHALLENGE: Octets16 = *b"!@#$%^&*()_+:3|~";
const FRESH: Octets16 = *b"fresh-fresh-fr16";
const WRONG: PasswordHash = PasswordHash::from_octets([0; 16]);

fn right() -> PasswordHash {
    PasswordHash::of("clientPass").unwrap()
}

fn table() -> Vec<u8> {
    [&[26, 0, 1, 0, 0, 0][..], right().octets(), b"User"].concat()
}

/// Both ends, and what each wrote last.
struct Link {
    peer: Peer,
    server: Server,
    request: Vec<u8>,
    reply: Vec<u8>,
}

impl Link {
    fn new(hash: &PasswordHash, retries: u64) -> Link {
        let mut server = Server::new();
        let mut room = [0; Server::REPLY_ROOM];
        let answer = server.start(255, &CHALLENGE, b"depot", retries, &mut room);
        Link {
            request: answer.unwrap().packet().to_vec(),
            peer: Peer::new(b"User", hash).unwrap(),
            server,
            reply: Vec::new(),
        }
    }

    /// The number, or that of the refusal.
    fn peer_takes(&mut self) -> u8 {
        let mut room = [0; Peer::REPLY_ROOM];
        match self.peer.step(&self.request, &PEER_CHALLENGE, &mut room) {
            Ok(answer) => {
                self.reply = answer.packet().to_vec();
                answer.number()
            }
            Err(refusal) => refusal.number(),
        }
    }

    fn server_takes(&mut self) -> u8 {
        let mut room = [0; Server::REPLY_ROOM];
        match self.server.packet(&self.reply, &table(), &FRESH, &mut room) {
            Ok(answer) => {
                self.request = answer.packet().to_vec();
                answer.number()
            }
            Err(refusal) => refusal.number(),
        }
    }
}

#[test]
fn right_password() {
    let mut link = Link::new(&right(), 0);
    assert_eq!(link.peer_takes(), 0);
    let nt = nt_response(&CHALLENGE, &PEER_CHALLENGE, b"User", &right()).unwrap();
    assert_eq!(nt[..4], [0x82, 0x30, 0x9e, 0xcd]);
    assert_eq!(link.reply[34..58], nt);
    assert_eq!(link.server_takes(), 0);
    let message = b"S=407A5589115FD0D6209F510FE9C04566932CDA56 M=";
    assert_eq!(link.request[9..], *message);
    assert_eq!(link.peer_takes(), 0);
    assert_eq!(link.peer.stage(), PeerStage::SuccessResponseSent);
    assert_eq!(link.server_takes(), 2);
    assert_eq!(link.server.stage(), ServerStage::Success);
    assert_eq!(link.peer_takes(), 2);
    assert_eq!(link.peer.stage(), PeerStage::Success);
}

/// The message ends with its digits, as FreeRADIUS writes it.
#[test]
fn success_without_a_message() {
    let mut link = Link::new(&right(), 0);
    assert_eq!((link.peer_takes(), link.server_takes()), (0, 0));
    let whole = link.request.clone();
    for (octets, number) in [(44, 17), (43, 17), (41, 17), (42, 0), (42, 0)] {
        link.request = whole[..9 + octets].to_vec();
        link.request[3] = 9 + octets as u8;
        link.request[8] = 4 + octets as u8;
        assert_eq!(link.peer_takes(), number, "{octets} octets");
    }
    assert_eq!(link.peer.stage(), PeerStage::SuccessResponseSent);
    assert_eq!((link.server_takes(), link.peer_takes()), (2, 2));
}

#[test]
fn second_try() {
    let mut link = Link::new(&WRONG, 1);
    assert_eq!((link.peer_takes(), link.server_takes()), (0, 0));
    assert_eq!(link.server.stage(), ServerStage::ChallengeSent);
    assert_eq!(link.peer_takes(), 1);
    assert_eq!(link.peer.stage(), PeerStage::Waiting);
    let mut room = [0; Peer::REPLY_ROOM];
    let answer = link.peer.supply(b"User", &right(), &[9; 16], &mut room);
    link.reply = answer.unwrap().packet().to_vec();
    assert_eq!((link.server_takes(), link.peer_takes()), (0, 0));
    assert_eq!((link.server_takes(), link.peer_takes()), (2, 2));
}

#[test]
fn giving_up() {
    let mut link = Link::new(&WRONG, 1);
    assert_eq!(link.peer.give_up(), Err(Refusal::NotTaken));
    assert_eq!(
        (link.peer_takes(), link.server_takes(), link.peer_takes()),
        (0, 0, 1)
    );
    assert_eq!(link.peer.give_up(), Ok(()));
    assert_eq!(link.peer.stage(), PeerStage::Failed);
}

#[test]
fn wrong_password() {
    let mut link = Link::new(&WRONG, 0);
    assert_eq!((link.peer_takes(), link.server_takes()), (0, 0));
    assert_eq!(link.server.stage(), ServerStage::FailureRequestSent);
    assert_eq!(
        (link.peer_takes(), link.server_takes(), link.peer_takes()),
        (0, 3, 3)
    );
    assert_eq!(link.server.stage(), ServerStage::Failed);
    assert_eq!(link.peer_takes(), 19);
}

#[test]
fn lost_packets_come_again() {
    let mut link = Link::new(&right(), 0);
    assert_eq!(link.peer_takes(), 0);
    let first = std::mem::take(&mut link.reply);
    let mut room = [0; Server::REPLY_ROOM];
    assert_eq!(
        link.server.resend(&mut room).unwrap().packet(),
        link.request
    );
    assert_eq!(link.peer_takes(), 0);
    assert_eq!(link.reply, first);
    assert_eq!(link.server.resend(&mut []), Err(Refusal::NoRoom));
}

#[test]
fn states_are_stored_and_brought_back() {
    let mut link = Link::new(&right(), 0);
    assert_eq!(link.peer_takes(), 0);
    link.peer = Peer::from_octets(*link.peer.octets());
    link.server = Server::from_octets(*link.server.octets());
    assert_eq!((link.server_takes(), link.peer_takes()), (0, 0));
    assert_eq!((link.server_takes(), link.peer_takes()), (2, 2));
}

#[test]
fn refusals() {
    assert_eq!(
        Peer::new(&[0; 257], &WRONG).err(),
        Some(Refusal::BadArgument)
    );
    assert_eq!(PasswordHash::of_units(&[0; 257]), Err(Refusal::BadArgument));
    assert!(PasswordHash::of_units(&[0; 256]).is_ok());
    assert_eq!(md4(&[0; 65_537]), Err(Refusal::BadArgument));
    assert_eq!(read(End::Peer, &[]), Err(Refusal::Short));
    assert_eq!(read(End::Server, &[3, 5, 0, 4]), Err(Refusal::BadCode));
    assert_eq!(accounts_check(&[0]), Err(Refusal::BadTable));
    assert_eq!(accounts_check(&table()), Ok(()));
    let (mut server, mut room) = (Server::new(), [0; Server::REPLY_ROOM]);
    let refused = server.start(1, &CHALLENGE, b"", 0, &mut room);
    assert_eq!(refused, Err(Refusal::BadArgument));
    let words = "no room for what is to be written";
    assert_eq!(Refusal::NoRoom.to_string(), words);
}

#[test]
fn digests_and_cipher() {
    assert_eq!(md4(b"abc").unwrap()[..4], [0xa4, 0x48, 0x01, 0x7a]);
    assert_eq!(sha1(b"abc").unwrap()[..4], [0xa9, 0x99, 0x3e, 0x36]);
    let key = 0x133457799bbcdff1u64.to_be_bytes();
    let block = 0x0123456789abcdefu64.to_be_bytes();
    assert_eq!(des(&key, &block), 0x85e813540f0ab405u64.to_be_bytes());
    let nt = nt_response(&CHALLENGE, &PEER_CHALLENGE, b"User", &right()).unwrap();
    let string = authenticator(&right(), &nt, &PEER_CHALLENGE, &CHALLENGE, b"User");
    assert_eq!(string.unwrap()[..4], [0x40, 0x7a, 0x55, 0x89]);
}
