//! The replies of sigverify's commands, by the library that adapters/c/build.py makes.
//!
//! It is proved of the library that a reply is the program's, as adapters/c/sigverify.h says. It is not proved that this
//! crate gives it the request. Several threads may make calls at once.

use std::fmt;

/// What to reply to a request, by the numbers of sigverify.h.
#[derive(Clone, Copy, Debug, PartialEq, Eq)]
#[repr(u32)]
pub enum Command {
    Log = 1,
    Verify = 2,
    Consistency = 3,
    Audit = 4,
    Witness = 5,
    Gate = 6,
    LogQuestions = 257,
    VerifyQuestions = 258,
    ConsistencyQuestions = 259,
    AuditQuestions = 260,
    WitnessQuestions = 261,
    GateQuestions = 262,
    ExplainLog = 513,
    ExplainVerify = 514,
    ExplainConsistency = 515,
    ExplainAudit = 516,
    ExplainWitness = 517,
    ExplainGate = 518,
}

/// What a reply is.
#[derive(Clone, Copy, Debug, PartialEq, Eq)]
pub enum Status {
    /// Every link of the command holds; for questions, the list is there.
    Holds,
    /// The reply names the first link that does not hold; for `Witness`, some update is refused; for `Gate`, some
    /// artifact is not admitted.
    Refused,
    /// The request is not one of the command's, or too long.
    NoRequest,
}

/// Why there is no reply.
#[derive(Clone, Copy, Debug, PartialEq, Eq)]
pub enum NoReply {
    OutOfMemory,
    /// The library returned a status that this crate does not know.
    Other(u8),
}

impl fmt::Display for NoReply {
    fn fmt(&self, f: &mut fmt::Formatter<'_>) -> fmt::Result {
        match self {
            NoReply::OutOfMemory => write!(f, "out of memory"),
            NoReply::Other(status) => write!(f, "the library returned {status}"),
        }
    }
}

impl std::error::Error for NoReply {}

const NO_MEMORY: u8 = 71;
const NO_ROOM: u8 = 75;

/// Bytes of room for a reply; a list of questions and an explanation can be longer.
const FIRST_ROOM: usize = 1 << 12;

extern "C" {
    fn sigverify_reply(
        command: u32,
        request: *const u8,
        request_len: usize,
        reply: *mut u8,
        room: usize,
        written: *mut usize,
    ) -> u8;
    fn sigverify_version() -> u32;
}

/// The library's version: 2^16 times its first number, plus 2^8 times the second, plus the third.
pub fn version() -> u32 {
    // SAFETY: it takes nothing.
    unsafe { sigverify_version() }
}

/// Returns what a command says to a request, with its status.
pub fn reply(command: Command, request: &[u8]) -> Result<(Status, Vec<u8>), NoReply> {
    let mut text = vec![0; FIRST_ROOM];
    loop {
        let mut written = 0;
        // SAFETY: request, text and written are memory of their own, of these lengths, and no pointer is null.
        let status = unsafe {
            sigverify_reply(
                command as u32,
                request.as_ptr(),
                request.len(),
                text.as_mut_ptr(),
                text.len(),
                &mut written,
            )
        };
        let status = match status {
            0 => Status::Holds,
            1 => Status::Refused,
            2 => Status::NoRequest,
            NO_MEMORY => return Err(NoReply::OutOfMemory),
            NO_ROOM if text.len() < written => {
                text = vec![0; written];
                continue;
            }
            other => return Err(NoReply::Other(other)),
        };
        text.truncate(written);
        return Ok((status, text));
    }
}
