//! Verifies the bundle of an artifact by ring:
//! `cargo run --example verify TRUSTED_ROOT BUNDLE ARTIFACT IDENTITY ISSUER NOW`
use ring::digest;
use ring::signature::{
    UnparsedPublicKey, VerificationAlgorithm, ECDSA_P256_SHA256_ASN1, ECDSA_P384_SHA384_ASN1,
};
use serde_json::{json, value::RawValue, Value};
use sigverify::{reply, Command, Status};
use std::error::Error;
use std::io::Write;

/// What a SubjectPublicKeyInfo on a curve has before the point: P-256 and P-384 (RFC 5480 section 2).
const P256: &[u8] = b"\x30\x59\x30\x13\x06\x07\x2a\x86\x48\xce\x3d\x02\x01\x06\x08\x2a\x86\x48\xce\x3d\x03\x01\x07\x03\x42\x00";
const P384: &[u8] =
    b"\x30\x76\x30\x10\x06\x07\x2a\x86\x48\xce\x3d\x02\x01\x06\x05\x2b\x81\x04\x00\x22\x03\x62\x00";

/// ecdsa-with-SHA256 and ecdsa-with-SHA384 (RFC 5758 section 3.2), DER in base64.
const WITH_SHA256: &str = "MAoGCCqGSM49BAMC";
const WITH_SHA384: &str = "MAoGCCqGSM49BAMD";

/// Whether ring verifies the signature of a row: ECDSA over P-256 or P-384 with the hash of its size. Of any other kind, and
/// of a signature over a digest, which ring does not take, it is false.
fn is_genuine(row: &Value) -> bool {
    let bytes = |name: &str| base64::decode(row[name].as_str()?).ok();
    let (Some(key), Some(message), Some(signature)) =
        (bytes("key"), bytes("message"), bytes("signature"))
    else {
        return false;
    };
    let (algorithm, front): (&dyn VerificationAlgorithm, &[u8]) =
        match (row["operation"].as_str(), row["scheme"].as_str()) {
            (Some("point"), None) => (&ECDSA_P256_SHA256_ASN1, b""),
            (Some("message"), Some("ECDSA_P256_SHA256_ASN1"))
            | (Some("certificate"), Some(WITH_SHA256)) => (&ECDSA_P256_SHA256_ASN1, P256),
            (Some("message"), Some("ECDSA_P384_SHA384_ASN1"))
            | (Some("certificate"), Some(WITH_SHA384)) => (&ECDSA_P384_SHA384_ASN1, P384),
            _ => return false,
        };
    match key.strip_prefix(front) {
        Some(point) => {
            UnparsedPublicKey::new(algorithm, point).verify(&message, &signature).is_ok()
        }
        None => false,
    }
}

/// The reply of `verify` to a request without `accepted`, with the genuine ones of the signatures that it can rest on.
fn checked(request: &str) -> Result<(Status, Vec<u8>), Box<dyn Error>> {
    let (status, listed) = reply(Command::VerifyQuestions, request.as_bytes())?;
    if status != Status::Holds {
        return Ok((status, listed));
    }
    let rows: Vec<&RawValue> = serde_json::from_slice(&listed)?;
    let mut accepted = Vec::new();
    for row in rows {
        if is_genuine(&serde_json::from_str(row.get())?) {
            accepted.push(row.get());
        }
    }
    let end = request.rfind('}').ok_or("the request is not an object")?;
    let (front, brace) = request.split_at(end);
    let answered = format!("{front},\"accepted\":[{}]{brace}", accepted.join(","));
    Ok(reply(Command::Verify, answered.as_bytes())?)
}

fn run() -> Result<i32, Box<dyn Error>> {
    let words: Vec<String> = std::env::args().skip(1).collect();
    let [trusted_root, bundle, artifact, identity, issuer, now] = words.as_slice() else {
        return Err("TRUSTED_ROOT BUNDLE ARTIFACT IDENTITY ISSUER NOW".into());
    };
    let digest = digest::digest(&digest::SHA256, &std::fs::read(artifact)?);
    let digits: String = digest.as_ref().iter().map(|byte| format!("{byte:02x}")).collect();
    let request = json!({
        "trustedRoot": std::fs::read_to_string(trusted_root)?,
        "bundle": std::fs::read_to_string(bundle)?,
        "now": now.parse::<u64>()?,
        "digest": format!("sha256:{digits}"),
        "policy": {"all": [{"identity": identity, "issuer": issuer}]},
    });
    let (status, text) = checked(&request.to_string())?;
    std::io::stdout().write_all(&text)?;
    Ok(status as i32)
}

fn main() {
    std::process::exit(run().unwrap_or_else(|error| {
        eprintln!("verify: {error}");
        3
    }));
}
