//! The chooser.

use crate::kind::Kind;
use crate::record::{read, read_identity, Record};
use crate::refusal::Refusal;

/// What the chooser and the cabinet look at in the Subject of a public key.
#[derive(Debug)]
pub(crate) struct Subject<'a> {
    /// Kind, Manufacturer and MID.
    pub(crate) entity: (Kind, &'a [u8], &'a [u8]),
    /// The order of these texts is the order of the times, and of their numbers of seconds.
    pub(crate) gnt: &'a [u8],
}

impl Subject<'_> {
    /// The same of an identity.
    pub(crate) fn of(identity: &[u8]) -> Result<Subject<'_>, Refusal> {
        let identity = read_identity(identity)?;
        let [manufacturer, mid, gnt, _fingerprint] = identity.fields[..] else {
            unreachable!("an accepted identity has four fields");
        };
        Ok(Subject { entity: (identity.kind, manufacturer, mid), gnt })
    }
}

/// Which of two public keys.
#[derive(Clone, Copy, Debug, PartialEq, Eq)]
pub struct Choice {
    pub answer: Result<(), Refusal>,
    /// The newer one, 1 or 2; with a refusal the one that is refused, and 0 where it is about both.
    pub which: u64,
}

/// Of two public keys the one whose Subject has the later GNT, the first when equal.
pub fn choose(first: &[u8], second: &[u8]) -> Choice {
    let (answer, which) = match (subject_of_key(first), subject_of_key(second)) {
        (Err(refusal), _) => (Err(refusal), 1),
        (_, Err(refusal)) => (Err(refusal), 2),
        (Ok(one), Ok(other)) if one.entity != other.entity => (Err(Refusal::OtherSubject), 0),
        (Ok(one), Ok(other)) => (Ok(()), if other.gnt > one.gnt { 2 } else { 1 }),
    };
    Choice { answer, which }
}

/// The same key, whole.
pub fn newer<'a>(first: &'a [u8], second: &'a [u8]) -> Result<&'a [u8], Refusal> {
    let Choice { answer, which } = choose(first, second);
    answer.map(|()| if which == 2 { second } else { first })
}

/// The Subject of a public key.
pub(crate) fn subject_of_key(public_key: &[u8]) -> Result<Subject<'_>, Refusal> {
    read(public_key, &Kind::PUBLIC_KEYS).map(|key| subject_in(&key))
}

/// The same of a key that was accepted.
pub(crate) fn subject_in<'a>(key: &Record<'a>) -> Subject<'a> {
    Subject::of(key.fields[0]).expect("an accepted key has an accepted Subject")
}
