//! Events: "laid out as records are (kind byte, then one-byte fields, a number of 4)".

use crate::model::book::{refuse, Refusal};

pub const LONGEST_LIST: usize = 65_536;

/// Kinds of event.
pub const STEP: u8 = 80;
pub const WRITE: u8 = 81;
pub const RELABEL: u8 = 82;
pub const NEW: u8 = 83;
pub const EXEC: u8 = 84;
pub const START: u8 = 85;

/// The value that an outsider brings: value kind and number.
#[derive(Clone, Copy, Debug, PartialEq, Eq)]
pub struct Brought {
    pub kind: u8,
    pub number: u32,
}

/// "80 step job; by an outsider at label Q: 81 write Q, cell, value kind, number; 82 relabel Q,
/// cell, label; 83 new Q, shape, value kind, number; 84 exec Q, cell; 85 start Q, block."
#[derive(Clone, Copy, Debug, PartialEq, Eq)]
pub enum Event {
    Step { job: u8 },
    Write { q: u8, cell: u8, value: Brought },
    Relabel { q: u8, cell: u8, label: u8 },
    New { q: u8, shape: u8, value: Brought },
    Exec { q: u8, cell: u8 },
    Start { q: u8, block: u8 },
}

fn brought(kind: u8, number: [u8; 4]) -> Brought {
    let number = u32::from_le_bytes(number);
    Brought { kind, number }
}

/// The event at the head of `rest`, and what stands behind it; none if its kind is unknown or its
/// body cut.
#[inline]
pub fn decode(rest: &[u8]) -> Option<(Event, &[u8])> {
    match *rest {
        [STEP, job, ref behind @ ..] => Some((Event::Step { job }, behind)),
        [WRITE, q, cell, kind, n0, n1, n2, n3, ref behind @ ..] => {
            let value = brought(kind, [n0, n1, n2, n3]);
            Some((Event::Write { q, cell, value }, behind))
        }
        [RELABEL, q, cell, label, ref behind @ ..] => {
            Some((Event::Relabel { q, cell, label }, behind))
        }
        [NEW, q, shape, kind, n0, n1, n2, n3, ref behind @ ..] => {
            let value = brought(kind, [n0, n1, n2, n3]);
            Some((Event::New { q, shape, value }, behind))
        }
        [EXEC, q, cell, ref behind @ ..] => Some((Event::Exec { q, cell }, behind)),
        [START, q, block, ref behind @ ..] => Some((Event::Start { q, block }, behind)),
        _ => None,
    }
}

/// Refusal 9: "The event list exceeds 65,536 bytes (place 0), or has an unknown kind or a cut
/// body." Calls `see` with each event up to the first at fault.
#[inline]
pub fn walk(bytes: &[u8], mut see: impl FnMut(Event)) -> Result<(), Refusal> {
    if bytes.len() > LONGEST_LIST {
        return refuse(9, 0);
    }
    let mut rest = bytes;
    while !rest.is_empty() {
        let Some((event, behind)) = decode(rest) else {
            return refuse(9, bytes.len() - rest.len());
        };
        see(event);
        rest = behind;
    }
    Ok(())
}

/// The events of a list.
pub fn split(bytes: &[u8]) -> Result<Vec<Event>, Refusal> {
    let mut events = Vec::new();
    walk(bytes, |event| events.push(event))?;
    Ok(events)
}
