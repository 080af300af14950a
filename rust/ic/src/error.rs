//! This module has the errors, each of which says why a call was refused.

use core::fmt;
use ic_sys::*;

/// The reason for which a call was refused. A refused call has changed nothing, except `retain`, which may have removed members.
///
/// ```
/// use ic::{Error, Link2, List};
///
/// let mut links = [Link2::UNLINKED; 3];
/// let mut list = List::new();
/// list.push_back(&mut links, 0)?;
/// assert_eq!(list.push_back(&mut links, 3), Err(Error::OutOfRange));
/// assert_eq!(list.push_back(&mut links, 0), Err(Error::Linked));
/// assert_eq!(list.remove(&mut links, 1), Err(Error::NotLinked));
/// assert_eq!(Error::Linked.to_string(), "the place to insert is in a list or tree of this table");
/// # Ok::<(), Error>(())
/// ```
#[derive(Clone, Copy, Debug, PartialEq, Eq, Hash)]
pub enum Error {
    /// A place is not below the table's length, or there are fewer keys, hashes or sums than places, or there is no bucket.
    OutOfRange,
    /// The place to insert is in a list or tree of this table already.
    Linked,
    /// A place that you name as a member is in no list or tree of this table.
    NotLinked,
    /// You passed `u32::MAX` for a member or a head that the call needs, or there is no member to remove or find.
    Null,
    /// The words of the table, the list or the tree contradict each other, or do not allow the edit.
    Broken,
}

impl fmt::Display for Error {
    fn fmt(&self, f: &mut fmt::Formatter<'_>) -> fmt::Result {
        f.write_str(match self {
            Error::OutOfRange => {
                "a place is not below the table's length, or there are fewer keys, hashes or sums than places, or there is no bucket"
            }
            Error::Linked => "the place to insert is in a list or tree of this table",
            Error::NotLinked => "the member that is named is in no list or tree of this table",
            Error::Null => "the call needs a member, and there is none",
            Error::Broken => "the table, the list or tree, and the members do not belong together",
        })
    }
}

impl core::error::Error for Error {}

/// Returns the result that corresponds to a status of C.
#[inline]
pub(crate) fn done(status: u32) -> Result<(), Error> {
    match status {
        IC_OK => Ok(()),
        IC_OUT_OF_RANGE => Err(Error::OutOfRange),
        IC_LINKED => Err(Error::Linked),
        IC_NOT_LINKED => Err(Error::NotLinked),
        IC_NULL => Err(Error::Null),
        _ => Err(Error::Broken),
    }
}

/// Makes a call of C that sets an out parameter to a member, and returns this member, or `None` if the status is `IC_NULL`.
#[inline]
pub(crate) fn handed_out(call: impl FnOnce(&mut u32) -> u32) -> Result<Option<u32>, Error> {
    let mut member = IC_NONE;
    match done(call(&mut member)) {
        Ok(()) => Ok(Some(member)),
        Err(Error::Null) => Ok(None),
        Err(error) => Err(error),
    }
}

/// Makes a call of C that counts members, and returns their number.
#[inline]
pub(crate) fn try_counted(call: impl FnOnce(&mut u64) -> u32) -> Result<u64, Error> {
    let mut members = 0;
    done(call(&mut members))?;
    Ok(members)
}

/// Makes a call of C that counts members, and returns their number, or `None` if the words form no list or tree.
#[inline]
pub(crate) fn counted(call: impl FnOnce(&mut u64) -> u32) -> Option<u64> {
    try_counted(call).ok()
}
