//! Hashes and states are wiped when they are dropped, compared whole, and not shown.

use std::mem::{size_of, ManuallyDrop};
use std::ptr::from_ref;

use zirgumtak::*;

/// The octets of a value's place, before and after its drop.
fn around_drop<T, const N: usize>(value: T) -> [[u8; N]; 2] {
    assert_eq!(size_of::<T>(), N);
    let mut place = ManuallyDrop::new(value);
    // SAFETY: the types below are N octets and nothing else.
    let before = unsafe { from_ref(&place).cast::<[u8; N]>().read() };
    // SAFETY: it is dropped once, and not used as a T afterwards.
    unsafe { ManuallyDrop::drop(&mut place) };
    // SAFETY: as before; the place is still there.
    let after = unsafe { from_ref(&place).cast::<[u8; N]>().read() };
    [before, after]
}

#[test]
fn dropped_values_leave_zeros() {
    let hash = PasswordHash::from_octets([7; 16]);
    assert_eq!(around_drop(hash.clone()), [[7; 16], [0; 16]]);
    assert_eq!(hash.octets(), &[7; 16], "a clone is wiped alone");
    let peer = Peer::from_octets([8; Peer::OCTETS]);
    let wiped = [[8; Peer::OCTETS], [0; Peer::OCTETS]];
    assert_eq!(around_drop(peer), wiped);
    let server = Server::from_octets([9; Server::OCTETS]);
    let wiped = [[9; Server::OCTETS], [0; Server::OCTETS]];
    assert_eq!(around_drop(server), wiped);
}

#[test]
fn hashes_are_compared_whole() {
    let octets = [0xa5; 16];
    let hash = PasswordHash::from_octets(octets);
    assert_eq!(hash, PasswordHash::from_octets(octets));
    for bit in 0..128 {
        let mut other = octets;
        other[bit / 8] ^= 1 << (bit % 8);
        assert_ne!(hash, PasswordHash::from_octets(other), "bit {bit}");
    }
}

#[test]
fn secrets_are_not_shown() {
    let hash = PasswordHash::of("clientPass").unwrap();
    let peer = Peer::new(b"User", &hash).unwrap();
    assert_eq!(format!("{hash:?}"), "PasswordHash(..)");
    assert_eq!(format!("{peer:?}"), "Peer { stage: Begin, .. }");
    let mut room = [0; 64];
    let mut accounts = TableBuilder::new(&mut room);
    accounts
        .append(AccountCode::MayLogIn, b"User", &hash)
        .unwrap();
    assert_eq!(format!("{accounts:?}"), "TableBuilder { used: 26, .. }");
}
