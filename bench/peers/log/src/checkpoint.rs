//! Signed notes of a log:
//!
//! ```text
//! log.example
//! 1
//! OVqgZKpMKfcBCs/j8l25SFu9S5GJe2rXrVR2OSUrTVY=
//!
//! — log.example AAAAAXNpZw==
//! ```

use crate::json::decode_base64;
use crate::merkle::Hash;

/// A note, which says a size and a root hash, and the signatures over it.
pub struct Checkpoint {
    /// The text that is signed: the note with the newline that ends it.
    pub note: String,
    pub size: u64,
    pub root: Hash,
    /// The signatures, each without the key's hint in its first four bytes.
    pub signatures: Vec<Vec<u8>>,
}

impl Checkpoint {
    /// Reads a checkpoint: a note, an empty line, and signatures between empty lines. `None` where the text is not a checkpoint.
    pub fn read(text: &str) -> Option<Checkpoint> {
        let (note, signatures) = text.trim_matches('"').split_once("\n\n")?;
        let signatures = signatures
            .split("\n\n")
            .filter(|piece| !piece.trim().is_empty())
            .map(read_signature)
            .collect::<Option<_>>()?;
        let mut lines = note.splitn(4, '\n');
        let (origin, size, hash) = (lines.next()?, lines.next()?, lines.next()?);
        if origin.trim().is_empty() {
            return None;
        }
        let size: u64 = size.parse().ok()?;
        let root = decode_base64(hash)?.try_into().ok()?;
        let mut note = format!("{origin}\n{size}\n{hash}\n");
        if let Some(contents) = lines.next() {
            note.push_str(contents);
            note.push('\n');
        }
        Some(Checkpoint { note, size, root, signatures })
    }
}

/// Reads a line `— NAME BASE64`.
fn read_signature(piece: &str) -> Option<Vec<u8>> {
    let mut parts = piece.trim_matches('\n').split(' ');
    let (dash, _name, coded) = (parts.next()?, parts.next()?, parts.next()?);
    if !dash.starts_with('—') || parts.next().is_some() {
        return None;
    }
    let mut bytes = decode_base64(coded.trim_end())?;
    (bytes.len() >= 4).then(|| bytes.split_off(4))
}
