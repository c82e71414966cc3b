//! The replies to the requests of examples/, and the example over a bundle that is really signed.
use sigverify::{reply, version, Command, Status};
use std::fs;
use std::path::Path;
use std::process::Command as Process;

const NAMES: [(&str, Command, Command); 6] = [
    ("log", Command::Log, Command::LogQuestions),
    ("verify", Command::Verify, Command::VerifyQuestions),
    ("consistency", Command::Consistency, Command::ConsistencyQuestions),
    ("audit", Command::Audit, Command::AuditQuestions),
    ("witness", Command::Witness, Command::WitnessQuestions),
    ("gate", Command::Gate, Command::GateQuestions),
];

fn folder(name: &str) -> String {
    format!("{}/../../{name}", env!("CARGO_MANIFEST_DIR"))
}

fn said(command: Command, request: &[u8]) -> String {
    let (status, text) = reply(command, request).expect("there is a reply");
    let text = String::from_utf8(text).expect("a reply is text");
    format!("{text}status {}\n", status as u32)
}

/// How many replies are those that the files say; each has the status in its last line.
fn examples() -> usize {
    let mut count = 0;
    for entry in fs::read_dir(folder("examples")).expect("examples are there") {
        let path = entry.expect("an example is there").path();
        if path.extension().map_or(true, |found| found != "json") {
            continue;
        }
        let name = path.file_stem().unwrap().to_str().unwrap();
        let request = fs::read(&path).unwrap();
        let command = name.split('-').next().unwrap();
        let (_, asked, questions) = NAMES.iter().find(|(found, ..)| *found == command).unwrap();
        for (file, command) in [(name.to_string(), asked), (format!("questions-{name}"), questions)]
        {
            let wanted = folder(&format!("examples/{file}.expected"));
            if Path::new(&wanted).exists() {
                assert_eq!(said(*command, &request), fs::read_to_string(wanted).unwrap(), "{file}");
                count += 1;
            }
        }
    }
    count
}

#[test]
fn replies_are_those_of_the_examples() {
    assert!(examples() > 20);
}

#[test]
fn threads_do_not_meet() {
    let threads: Vec<_> = (0..8).map(|_| std::thread::spawn(examples)).collect();
    for thread in threads {
        assert!(thread.join().expect("the thread ended well") > 20);
    }
}

#[test]
fn nothing_is_no_request() {
    assert_eq!(reply(Command::Verify, b""), Ok((Status::NoRequest, b"refused request\n".to_vec())));
}

#[test]
fn the_library_has_the_version_of_the_crate() {
    let numbers: Vec<u32> =
        env!("CARGO_PKG_VERSION").split('.').map(|number| number.parse().unwrap()).collect();
    assert_eq!(version(), numbers[0] << 16 | numbers[1] << 8 | numbers[2]);
}

const FILES: &str = "adapters/openssl/example";

/// What the example writes and its status, for the bundle in this file, of the artifact of that which is really signed.
fn example(identity: &str, bundle: &str) -> (String, Option<i32>) {
    let files = folder(FILES);
    let done = Process::new(env!("CARGO"))
        .args(["run", "--quiet", "--example", "verify", "--"])
        .args([&format!("{files}/trusted_root.json"), bundle, &format!("{files}/artifact")])
        .args([identity, "https://issuer.example", "1702512000"])
        .output()
        .expect("cargo runs");
    (String::from_utf8(done.stdout).unwrap(), done.status.code())
}

#[test]
fn the_example_verifies_a_signed_bundle() {
    let bundle = folder(&format!("{FILES}/bundle.json"));
    assert_eq!(
        example("https://example.com/workflow", &bundle),
        ("verified 2 5\n".to_string(), Some(0))
    );
    assert_eq!(example("somebody else", &bundle), ("refused policy\n".to_string(), Some(1)));
}

/// The log's promise is a signature that nothing else in the bundle repeats.
#[test]
fn the_example_refuses_another_signature() {
    let mut text = fs::read_to_string(folder(&format!("{FILES}/bundle.json"))).unwrap();
    let name = "\"signedEntryTimestamp\":\"";
    let at = text.find(name).unwrap() + name.len() + 30;
    let other = if text[at..].starts_with('A') { "B" } else { "A" };
    text.replace_range(at..=at, other);
    let bundle = format!("{}/bundle.json", env!("CARGO_TARGET_TMPDIR"));
    fs::write(&bundle, text).unwrap();
    assert_eq!(
        example("https://example.com/workflow", &bundle),
        ("refused promise\n".to_string(), Some(1))
    );
}
