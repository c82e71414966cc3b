//! The replies of `log` to the requests in the repository's `examples/`, and to texts at the limits of size and depth.

use plain_log::{reply, LIMIT};
use std::fs;
use std::path::{Path, PathBuf};

fn examples() -> PathBuf {
    Path::new(env!("CARGO_MANIFEST_DIR")).join("../../../examples")
}

/// The reply and the status to a text, on one line.
fn replied(text: &[u8]) -> String {
    let reply = reply(text);
    format!("{reply} status {}", reply.status()).replace('\n', " ")
}

#[test]
fn examples_have_their_replies() {
    let mut tried = 0;
    for entry in fs::read_dir(examples()).unwrap() {
        let path = entry.unwrap().path();
        let name = path.file_stem().unwrap().to_str().unwrap();
        if name.starts_with("log") && path.extension() == Some("json".as_ref()) {
            let expected = fs::read_to_string(path.with_extension("expected")).unwrap();
            let expected: Vec<&str> = expected.lines().collect();
            assert_eq!(replied(&fs::read(&path).unwrap()), expected.join(" "), "{name}");
            tried += 1;
        }
    }
    assert!(tried >= 3);
}

/// The text with the last of the members that have one name, which alone the plain program is to be asked about.
fn with_last_values(text: &str) -> Vec<u8> {
    match serde_json::from_str::<serde_json::Value>(text) {
        Ok(value) => serde_json::to_vec(&value).unwrap(),
        Err(_) => text.into(),
    }
}

/// `log.requests` has a request and its reply on two lines; a line that begins with `#` says what follows.
#[test]
fn requests_of_the_table_have_their_replies() {
    let table = fs::read_to_string(examples().join("log.requests")).unwrap();
    let lines: Vec<&str> = table.lines().filter(|line| !line.starts_with('#')).collect();
    for pair in lines.chunks(2) {
        assert_eq!(replied(&with_last_values(pair[0])), pair[1], "{}", pair[0]);
    }
    assert!(lines.len() >= 2);
}

/// The first example with a member before its own.
fn with_member(member: &str) -> String {
    fs::read_to_string(examples().join("log.json")).unwrap().replacen(
        '{',
        &format!("{{{member},"),
        1,
    )
}

#[test]
fn a_request_nests_to_127() {
    let nested = |depth| with_member(&format!(r#""o":{}{}"#, "[".repeat(depth), "]".repeat(depth)));
    assert_eq!(replied(nested(126).as_bytes()), "logged 0 1 status 0");
    assert_eq!(replied(nested(127).as_bytes()), "refused request status 2");
}

#[test]
fn a_request_has_at_most_the_limit() {
    let text = with_member(r#""o":0"#);
    let padded = |len| text.clone() + &" ".repeat(len - text.len());
    assert_eq!(replied(padded(LIMIT).as_bytes()), "logged 0 1 status 0");
    assert_eq!(replied(padded(LIMIT + 1).as_bytes()), "refused request status 2");
}

#[test]
fn no_value_of_a_request_is_a_float() {
    for (value, expected) in [
        ("1", "logged 0 1 status 0"),
        ("-0", "refused request status 2"),
        ("[{\"a\":1e0}]", "refused request status 2"),
    ] {
        assert_eq!(
            replied(with_member(&format!(r#""o":{value}"#)).as_bytes()),
            expected,
            "{value}"
        );
    }
}

#[test]
fn texts_that_are_no_requests() {
    for text in [b"".as_slice(), b"{}", b"[]", b"null", b"\xef\xbb\xbf{}", b"{\"a\":\"\xff\"}"] {
        assert_eq!(replied(text), "refused request status 2");
    }
}
