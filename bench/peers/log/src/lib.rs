//! Whether an entry is in a transparency log, and whether the log vouches for it: five links, of which the first that fails
//! is the reply.
//!
//! It differs from sigverify in one place: if a member is given twice, sigverify looks only at the last value, while
//! here each value has to be of the member's kind, and none may hold a float.

mod checkpoint;
mod json;
mod merkle;
mod request;

use checkpoint::Checkpoint;
use request::{Operation, Request};
use std::collections::HashSet;
use std::fmt;

/// A request has at most this many bytes.
pub const LIMIT: usize = 1 << 24;

/// The reply to a request.
#[derive(Debug, PartialEq, Eq)]
pub enum Reply {
    Logged { index: i64, size: u64, list: Option<List> },
    Refused(Link),
}

/// What the log's entries are, where the request has them.
#[derive(Debug, PartialEq, Eq)]
pub enum List {
    /// They are those of the tree, and the entry is at this index.
    Entry(i64),
    /// They have another size or root.
    Other,
}

/// The links of the chain, in the order in which they are tested.
#[derive(Debug, PartialEq, Eq)]
pub enum Link {
    Request,
    Checkpoint,
    NoteKey,
    NoteMatch,
    Inclusion,
}

impl Reply {
    /// The program's exit status.
    pub fn status(&self) -> u8 {
        match self {
            Reply::Logged { .. } => 0,
            Reply::Refused(Link::Request) => 2,
            Reply::Refused(_) => 1,
        }
    }
}

impl fmt::Display for Reply {
    fn fmt(&self, f: &mut fmt::Formatter<'_>) -> fmt::Result {
        match self {
            Reply::Logged { index, size, list } => {
                write!(f, "logged {index} {size}")?;
                match list {
                    Some(List::Entry(index)) => write!(f, "\nentry {index}"),
                    Some(List::Other) => f.write_str("\nother list"),
                    None => Ok(()),
                }
            }
            Reply::Refused(link) => write!(f, "refused {link}"),
        }
    }
}

impl fmt::Display for Link {
    fn fmt(&self, f: &mut fmt::Formatter<'_>) -> fmt::Result {
        f.write_str(match self {
            Link::Request => "request",
            Link::Checkpoint => "checkpoint",
            Link::NoteKey => "note-key",
            Link::NoteMatch => "note-match",
            Link::Inclusion => "inclusion",
        })
    }
}

/// The reply to the text of a request.
pub fn reply(text: &[u8]) -> Reply {
    logged(text).unwrap_or_else(Reply::Refused)
}

/// The reply to a request of which every link holds, or the first link that fails.
fn logged(text: &[u8]) -> Result<Reply, Link> {
    if text.len() > LIMIT {
        return Err(Link::Request);
    }
    let request: Request = serde_json::from_slice(text).map_err(|_| Link::Request)?;
    let checkpoint = Checkpoint::read(&request.checkpoint).ok_or(Link::Checkpoint)?;
    if !is_signed(&request, &checkpoint) {
        return Err(Link::NoteKey);
    }
    if (checkpoint.size, checkpoint.root) != (request.tree_size, request.root_hash) {
        return Err(Link::NoteMatch);
    }
    if !is_included(&request) {
        return Err(Link::Inclusion);
    }
    let list = request.entries.as_deref().map(|entries| list_of(&request, entries));
    Ok(Reply::Logged { index: request.log_index, size: request.tree_size, list })
}

/// What the log's entries are, for a request of which every link holds.
fn list_of(request: &Request, entries: &[Vec<u8>]) -> List {
    if entries.len() as u64 != request.tree_size || merkle::tree(entries) != request.root_hash {
        return List::Other;
    }
    // Another entry at the index would be one of two byte strings of equal SHA-256, which sigverify writes.
    assert_eq!(entries[request.log_index as usize], request.entry);
    List::Entry(request.log_index)
}

/// Whether one of the checkpoint's signatures over its note is accepted under the log's scheme and key.
fn is_signed(request: &Request, checkpoint: &Checkpoint) -> bool {
    let accepted: HashSet<&[u8]> = request
        .accepted
        .iter()
        .filter(|row| row.operation == Operation::Message)
        .filter(|row| row.scheme == request.scheme.name().as_bytes() && row.key == request.key)
        .filter(|row| row.message == checkpoint.note.as_bytes())
        .map(|row| row.signature.as_slice())
        .collect();
    checkpoint.signatures.iter().any(|signature| accepted.contains(signature.as_slice()))
}

/// Whether the audit path leads from the entry's leaf to the root.
fn is_included(request: &Request) -> bool {
    let Ok(index) = u64::try_from(request.log_index) else {
        return false;
    };
    let leaf = merkle::leaf(&request.entry);
    merkle::root(leaf, index, request.tree_size, &request.hashes) == Some(request.root_hash)
}
