//! Account tables, made and checked.

use core::fmt;

use crate::answer::{answer_of, done_of, Refusal};
use crate::{raw, PasswordHash};

/// Whether an account table is well formed; else [`Refusal::BadTable`].
pub fn accounts_check(table: &[u8]) -> Result<(), Refusal> {
    done_of(raw::accounts_check(table))
}

/// What a peer with the right password is told. The values are the numbers.
#[derive(Clone, Copy, PartialEq, Eq, Debug)]
#[non_exhaustive]
#[repr(u16)]
pub enum AccountCode {
    /// The account may log in.
    MayLogIn = 0,
    /// Not at this hour.
    RestrictedHours = 646,
    /// The account is disabled.
    Disabled = 647,
    /// The password has expired.
    PasswordExpired = 648,
    /// The account may not dial in.
    NoDialIn = 649,
}

impl AccountCode {
    /// The number of the code.
    pub fn number(self) -> u16 {
        self as u16
    }
}

/// Makes an account table in a lent buffer, account by account.
///
/// ```
/// use zirgumtak::{AccountCode, PasswordHash, Refusal, TableBuilder};
///
/// fn main() -> Result<(), Refusal> {
///     let mut room = [0; 2 * TableBuilder::MAX_ACCOUNT];
///     let mut builder = TableBuilder::new(&mut room);
///     builder.append(AccountCode::MayLogIn, b"frz", &PasswordHash::of("secret")?)?;
///     builder.append(AccountCode::Disabled, b"logger 7", &PasswordHash::of("zwölf Grad")?)?;
///     assert_eq!(builder.table().len(), 22 + 3 + 22 + 8);
///     Ok(())
/// }
/// ```
///
/// The table holds the hashes, and the buffer is the caller's: it is not wiped.
pub struct TableBuilder<'b> {
    room: &'b mut [u8],
    used: usize,
}

impl<'b> TableBuilder<'b> {
    /// The octets of an account with the longest name, 256 octets. A shorter name takes as many
    /// fewer.
    pub const MAX_ACCOUNT: usize = 278;

    /// A table without accounts.
    pub fn new(room: &'b mut [u8]) -> TableBuilder<'b> {
        TableBuilder { room, used: 0 }
    }

    /// Goes on with the table that is the first `used` octets of the buffer.
    ///
    /// Refusals, the first that holds: 23 (more than the buffer has), 21.
    pub fn continuing(room: &'b mut [u8], used: usize) -> Result<TableBuilder<'b>, Refusal> {
        let table = room.get(..used).ok_or(Refusal::BadArgument)?;
        accounts_check(table)?;
        Ok(TableBuilder { room, used })
    }

    /// Puts an account at the end. Of two accounts of one name the first counts.
    ///
    /// Refusals, the first that holds: 23 (a name over 256 octets), 20 (the buffer, or the 65,536
    /// octets of the longest table, are full). The table stays as it was.
    pub fn append(
        &mut self,
        code: AccountCode,
        name: &[u8],
        hash: &PasswordHash,
    ) -> Result<(), Refusal> {
        let code = u64::from(code.number());
        let word = raw::accounts_append(self.room, self.used, code, hash.octets(), name);
        self.used = answer_of(word, self.room)?.packet().len();
        Ok(())
    }

    /// The table so far.
    pub fn table(&self) -> &[u8] {
        &self.room[..self.used]
    }

    /// The table, for as long as the buffer is lent.
    pub fn finish(self) -> &'b [u8] {
        &self.room[..self.used]
    }
}

/// The length alone: the table holds secrets.
impl fmt::Debug for TableBuilder<'_> {
    fn fmt(&self, out: &mut fmt::Formatter<'_>) -> fmt::Result {
        out.debug_struct("TableBuilder")
            .field("used", &self.used)
            .finish_non_exhaustive()
    }
}
