//! `plain-log log < REQUEST`: what `sigverify log` answers, written plainly with serde for comparison.

use plain_log::{reply, LIMIT};
use std::io::{self, Read, Write};
use std::process::ExitCode;

const USAGE: u8 = 64;
const IO_ERROR: u8 = 74;

fn main() -> ExitCode {
    let (status, line) = if std::env::args_os().skip(1).eq(["log"]) {
        let mut input = Vec::new();
        if io::stdin().take(LIMIT as u64 + 1).read_to_end(&mut input).is_err() {
            return ExitCode::from(IO_ERROR);
        }
        let reply = reply(&input);
        (reply.status(), reply.to_string())
    } else {
        (USAGE, "usage".to_owned())
    };
    match writeln!(io::stdout(), "{line}") {
        Ok(()) => ExitCode::from(status),
        Err(_) => ExitCode::from(IO_ERROR),
    }
}
