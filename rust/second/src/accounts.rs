//! The account table: lent octets, records end to end (document 01, "Account table").

use crate::number::{BAD_ARGUMENT, BAD_TABLE, NO_ROOM};
use crate::{Octets16, MAX_NAME, MAX_TABLE};

/// What the table says of a user.
#[derive(Clone, Copy, PartialEq, Eq, Debug)]
pub struct Account {
    /// 0, or the error that a right Response is told.
    pub code: u16,
    pub hash: Octets16,
}

const RECORD_HEADER: usize = 4;
const ACCOUNT_KIND: u16 = 1;
const ACCOUNT_NAME: usize = 22;
const MAX_ACCOUNT: usize = ACCOUNT_NAME + MAX_NAME;

/// 21 for a malformed table.
pub fn check(table: &[u8]) -> Result<(), u8> {
    each_account(table, |_, _| ())
}

/// The first account whose name equals the user octet for octet; 21 for a malformed table, then
/// 23 for a user over 256 octets.
pub fn find(table: &[u8], user: &[u8]) -> Result<Option<Account>, u8> {
    let mut found = None;
    each_account(table, |account, name| {
        let same = equal(name, user);
        if found.is_none() && same {
            found = Some(account);
        }
    })?;
    if user.len() > MAX_NAME {
        return Err(BAD_ARGUMENT);
    }
    Ok(found)
}

/// Adds an account after the table that is the buffer's first `used` octets, and answers the
/// table's new length. 23 where the buffer has fewer octets; then 21, 23 for what has no record,
/// and 20 where the longer table has no room in the buffer or is over 65,536 octets.
pub fn append(
    buffer: &mut [u8],
    used: usize,
    code: u64,
    hash: &Octets16,
    name: &[u8],
) -> Result<usize, u8> {
    check(buffer.get(..used).ok_or(BAD_ARGUMENT)?)?;
    let record = record_of(code, hash, name).ok_or(BAD_ARGUMENT)?;
    let end = used + record.len();
    if end > MAX_TABLE {
        return Err(NO_ROOM);
    }
    let room = buffer.get_mut(used..end).ok_or(NO_ROOM)?;
    room.copy_from_slice(&record);
    Ok(end)
}

/// The kind-1 record, if there is one with that code and name.
fn record_of(code: u64, hash: &Octets16, name: &[u8]) -> Option<Vec<u8>> {
    let code = u16::try_from(code).ok().filter(|code| is_code(*code))?;
    if name.len() > MAX_NAME {
        return None;
    }
    let length = (ACCOUNT_NAME + name.len()) as u16;
    let mut record = Vec::with_capacity(MAX_ACCOUNT);
    for number in [length, ACCOUNT_KIND, code] {
        record.extend(number.to_le_bytes());
    }
    record.extend(hash);
    record.extend(name);
    Some(record)
}

fn is_code(code: u16) -> bool {
    matches!(code, 0 | 646..=649)
}

/// Looks at every octet of names of one length, and at names after the account's too.
fn equal(name: &[u8], user: &[u8]) -> bool {
    let different = |octets, (a, b): (&u8, &u8)| octets | (a ^ b);
    name.len() == user.len() && name.iter().zip(user).fold(0, different) == 0
}

/// Shows every account and its name in turn, or answers 21 for a record of another form.
fn each_account(mut table: &[u8], mut show: impl FnMut(Account, &[u8])) -> Result<(), u8> {
    if table.len() > MAX_TABLE {
        return Err(BAD_TABLE);
    }
    while !table.is_empty() {
        let (record, rest) = first_record(table).ok_or(BAD_TABLE)?;
        if word(record, 2) == ACCOUNT_KIND {
            let (account, name) = account_form(record).ok_or(BAD_TABLE)?;
            show(account, name);
        }
        table = rest;
    }
    Ok(())
}

/// The length counts the whole record, is 4 or more and stays within the table.
fn first_record(table: &[u8]) -> Option<(&[u8], &[u8])> {
    if table.len() < RECORD_HEADER {
        return None;
    }
    let length = usize::from(word(table, 0));
    if length < RECORD_HEADER {
        return None;
    }
    table.split_at_checked(length)
}

/// Kind 1: code, hash and name.
fn account_form(record: &[u8]) -> Option<(Account, &[u8])> {
    if !(ACCOUNT_NAME..=MAX_ACCOUNT).contains(&record.len()) {
        return None;
    }
    let code = word(record, 4);
    if !is_code(code) {
        return None;
    }
    let mut hash = [0; 16];
    hash.copy_from_slice(&record[6..ACCOUNT_NAME]);
    Some((Account { code, hash }, &record[ACCOUNT_NAME..]))
}

/// The little-endian number of two octets.
fn word(octets: &[u8], at: usize) -> u16 {
    u16::from_le_bytes([octets[at], octets[at + 1]])
}
