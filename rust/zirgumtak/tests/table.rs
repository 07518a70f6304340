//! Account tables against the layout of `zirgumtak.h`.

use zirgumtak::*;

const CODES: [AccountCode; 5] = [
    AccountCode::MayLogIn,
    AccountCode::RestrictedHours,
    AccountCode::Disabled,
    AccountCode::PasswordExpired,
    AccountCode::NoDialIn,
];

/// A record by hand: length, kind 1, code, hash, name.
fn record(code: u16, name: &[u8], hash: &PasswordHash) -> Vec<u8> {
    let length = (22 + name.len() as u16).to_le_bytes();
    let (kind, code) = (1u16.to_le_bytes(), code.to_le_bytes());
    [&length[..], &kind, &code, hash.octets(), name].concat()
}

fn hash(octet: u8) -> PasswordHash {
    PasswordHash::from_octets([octet; 16])
}

#[test]
fn accounts_of_every_code() {
    let mut room = [0xee; 400];
    let mut builder = TableBuilder::new(&mut room);
    assert_eq!(builder.table(), b"");
    let mut table = Vec::new();
    for ((code, number), octet) in CODES.into_iter().zip([0, 646, 647, 648, 649]).zip(1..) {
        let name = vec![b'n'; 3 * usize::from(octet - 1)];
        assert_eq!(builder.append(code, &name, &hash(octet)), Ok(()));
        table.extend(record(number, &name, &hash(octet)));
        assert_eq!(builder.table(), table);
        assert_eq!(accounts_check(builder.table()), Ok(()));
    }
    assert_eq!(builder.finish(), table);
    assert!(room[table.len()..].iter().all(|octet| *octet == 0xee));
}

/// A refused account leaves the table, and the next one finds its place.
#[test]
fn names_too_long_and_full_buffers() {
    let mut room = [0xee; TableBuilder::MAX_ACCOUNT + 26];
    let mut builder = TableBuilder::new(&mut room);
    let code = AccountCode::MayLogIn;
    let refused = builder.append(code, &[b'n'; 257], &hash(1));
    assert_eq!(refused, Err(Refusal::BadArgument));
    assert_eq!(builder.append(code, &[b'n'; 256], &hash(1)), Ok(()));
    let refused = builder.append(code, b"Users", &hash(2));
    assert_eq!(refused, Err(Refusal::NoRoom));
    assert_eq!(builder.table(), record(0, &[b'n'; 256], &hash(1)));
    assert_eq!(builder.append(code, b"User", &hash(3)), Ok(()));
    assert_eq!(builder.append(code, b"", &hash(4)), Err(Refusal::NoRoom));
    let table = [
        record(0, &[b'n'; 256], &hash(1)),
        record(0, b"User", &hash(3)),
    ];
    assert_eq!(room[..], table.concat());
}

#[test]
fn a_table_has_65_536_octets_at_most() {
    let mut room = vec![0; Server::MAX_TABLE + 100];
    let mut builder = TableBuilder::new(&mut room);
    let code = AccountCode::Disabled;
    for _ in 0..Server::MAX_TABLE / 256 {
        assert_eq!(builder.append(code, &[b'n'; 234], &hash(1)), Ok(()));
    }
    assert_eq!(builder.table().len(), Server::MAX_TABLE);
    assert_eq!(builder.append(code, b"", &hash(1)), Err(Refusal::NoRoom));
    assert_eq!(accounts_check(builder.finish()), Ok(()));
}

#[test]
fn tables_are_continued() {
    let first = record(647, b"frz", &hash(1));
    let mut room = [0; 64];
    room[..first.len()].copy_from_slice(&first);
    let mut builder = TableBuilder::continuing(&mut room, first.len()).unwrap();
    assert_eq!(
        builder.append(AccountCode::MayLogIn, b"User", &hash(2)),
        Ok(())
    );
    let table = [first.clone(), record(0, b"User", &hash(2))].concat();
    assert_eq!(builder.finish(), table);
    for (used, refusal) in [
        (65, Refusal::BadArgument),
        (usize::MAX, Refusal::BadArgument),
        (first.len() - 1, Refusal::BadTable),
        (64, Refusal::BadTable),
    ] {
        let refused = TableBuilder::continuing(&mut room, used);
        assert_eq!(refused.unwrap_err(), refusal, "{used}");
    }
}

#[test]
fn a_server_judges_by_it() {
    let right = PasswordHash::of("clientPass").unwrap();
    for (code, stage) in [
        (AccountCode::MayLogIn, ServerStage::SuccessRequestSent),
        (AccountCode::Disabled, ServerStage::FailureRequestSent),
    ] {
        let mut room = [0; 64];
        let mut builder = TableBuilder::new(&mut room);
        builder.append(code, b"User", &right).unwrap();
        let (mut server, mut peer) = (Server::new(), Peer::new(b"User", &right).unwrap());
        let (mut requests, mut replies) = ([0; Server::REPLY_ROOM], [0; Peer::REPLY_ROOM]);
        let request = server.start(1, &[1; 16], b"depot", 0, &mut requests);
        let reply = peer.step(request.unwrap().packet(), &[2; 16], &mut replies);
        let reply = reply.unwrap().packet();
        let judged = server.packet(reply, builder.table(), &[3; 16], &mut requests);
        assert!(judged.is_ok());
        assert_eq!(server.stage(), stage);
    }
}
