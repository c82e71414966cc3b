//! The request of `log`.

use crate::json::{decode_base64, Base64, Hex32, Ignored, Integer, Text};
use crate::merkle::Hash;
use serde::de::{Error, MapAccess, Visitor};
use serde::{Deserialize, Deserializer};
use std::borrow::Cow;
use std::fmt;

pub struct Request<'a> {
    pub entry: Vec<u8>,
    pub log_index: i64,
    pub tree_size: u64,
    pub root_hash: Hash,
    pub hashes: Vec<Hash>,
    pub checkpoint: Cow<'a, str>,
    pub scheme: Scheme,
    pub key: Vec<u8>,
    pub accepted: Vec<Row>,
    /// All entries of the log, where they are given.
    pub entries: Option<Vec<Vec<u8>>>,
}

/// A signature that is taken for genuine.
pub struct Row {
    pub operation: Operation,
    /// The scheme's name; no bytes for a point; the algorithm's DER for a certificate.
    pub scheme: Vec<u8>,
    pub key: Vec<u8>,
    pub message: Vec<u8>,
    pub signature: Vec<u8>,
}

#[derive(Clone, Copy, PartialEq, Eq)]
pub enum Operation {
    Message,
    Prehash,
    Point,
    Certificate,
}

/// A scheme by its name, one of [`SCHEMES`].
pub struct Scheme(&'static str);

const SCHEMES: [&str; 6] = [
    "ECDSA_P256_SHA256_ASN1",
    "ECDSA_P384_SHA384_ASN1",
    "ECDSA_P521_SHA512_ASN1",
    "ED25519",
    "RSA_PKCS1_SHA256",
    "RSA_PSS_SHA256",
];

impl Scheme {
    fn named(text: &str) -> Option<Scheme> {
        SCHEMES.into_iter().find(|name| *name == text).map(Scheme)
    }

    pub fn name(&self) -> &'static str {
        self.0
    }
}

impl Operation {
    fn named(text: &str) -> Option<Operation> {
        Some(match text {
            "message" => Operation::Message,
            "prehash" => Operation::Prehash,
            "point" => Operation::Point,
            "certificate" => Operation::Certificate,
            _ => return None,
        })
    }

    /// The scheme of a row: a name for the first two, absent for a point, base64 for a certificate.
    fn scheme(self, scheme: Option<&str>) -> Option<Vec<u8>> {
        match (self, scheme) {
            (Operation::Message | Operation::Prehash, Some(text)) => {
                Scheme::named(text).map(|scheme| scheme.name().into())
            }
            (Operation::Point, None) => Some(Vec::new()),
            (Operation::Certificate, Some(text)) => decode_base64(text),
            _ => None,
        }
    }
}

/// The value of a member that has to be there.
fn required<T, E: Error>(value: Option<T>, name: &'static str) -> Result<T, E> {
    value.ok_or_else(|| E::missing_field(name))
}

/// What a name says, from a text that has to be a name.
fn named<T, E: Error>(text: Text, read: impl Fn(&str) -> Option<T>) -> Result<T, E> {
    read(&text.0).ok_or_else(|| E::custom(format_args!("no such name: {}", text.0)))
}

impl<'de: 'a, 'a> Deserialize<'de> for Request<'a> {
    fn deserialize<D: Deserializer<'de>>(deserializer: D) -> Result<Self, D::Error> {
        deserializer.deserialize_map(RequestVisitor)
    }
}

impl<'de> Deserialize<'de> for Row {
    fn deserialize<D: Deserializer<'de>>(deserializer: D) -> Result<Self, D::Error> {
        deserializer.deserialize_map(RowVisitor)
    }
}

struct RequestVisitor;

#[derive(Deserialize)]
#[serde(field_identifier, rename_all = "camelCase")]
enum RequestMember {
    Entry,
    LogIndex,
    TreeSize,
    RootHash,
    Hashes,
    Checkpoint,
    Scheme,
    Key,
    Accepted,
    Entries,
    #[serde(other)]
    Other,
}

impl<'de> Visitor<'de> for RequestVisitor {
    type Value = Request<'de>;

    fn expecting(&self, f: &mut fmt::Formatter) -> fmt::Result {
        f.write_str("a request of log")
    }

    fn visit_map<A: MapAccess<'de>>(self, mut members: A) -> Result<Request<'de>, A::Error> {
        let mut entry: Option<Base64> = None;
        let mut log_index: Option<Integer> = None;
        let mut tree_size: Option<Integer> = None;
        let mut root_hash: Option<Hex32> = None;
        let mut hashes: Option<Vec<Hex32>> = None;
        let mut checkpoint: Option<Text> = None;
        let mut scheme: Option<Text> = None;
        let mut key: Option<Base64> = None;
        let mut accepted: Option<Vec<Row>> = None;
        let mut entries: Option<Vec<Base64>> = None;
        while let Some(member) = members.next_key()? {
            match member {
                RequestMember::Entry => entry = members.next_value()?,
                RequestMember::LogIndex => log_index = members.next_value()?,
                RequestMember::TreeSize => tree_size = members.next_value()?,
                RequestMember::RootHash => root_hash = members.next_value()?,
                RequestMember::Hashes => hashes = members.next_value()?,
                RequestMember::Checkpoint => checkpoint = members.next_value()?,
                RequestMember::Scheme => scheme = members.next_value()?,
                RequestMember::Key => key = members.next_value()?,
                RequestMember::Accepted => accepted = members.next_value()?,
                RequestMember::Entries => entries = members.next_value()?,
                RequestMember::Other => {
                    members.next_value::<Ignored>()?;
                }
            }
        }
        Ok(Request {
            entry: required(entry, "entry")?.0,
            log_index: required(log_index, "logIndex")?.to()?,
            tree_size: required(tree_size, "treeSize")?.to()?,
            root_hash: required(root_hash, "rootHash")?.0,
            hashes: hashes.unwrap_or_default().into_iter().map(|hash| hash.0).collect(),
            checkpoint: required(checkpoint, "checkpoint")?.0,
            scheme: named(required(scheme, "scheme")?, Scheme::named)?,
            key: required(key, "key")?.0,
            accepted: accepted.unwrap_or_default(),
            entries: entries.map(|list| list.into_iter().map(|entry| entry.0).collect()),
        })
    }
}

struct RowVisitor;

#[derive(Deserialize)]
#[serde(field_identifier, rename_all = "camelCase")]
enum RowMember {
    Operation,
    Scheme,
    Key,
    Message,
    Signature,
    #[serde(other)]
    Other,
}

impl<'de> Visitor<'de> for RowVisitor {
    type Value = Row;

    fn expecting(&self, f: &mut fmt::Formatter) -> fmt::Result {
        f.write_str("a row of accepted")
    }

    fn visit_map<A: MapAccess<'de>>(self, mut members: A) -> Result<Row, A::Error> {
        let mut operation: Option<Text> = None;
        let mut scheme: Option<Text> = None;
        let mut key: Option<Base64> = None;
        let mut message: Option<Base64> = None;
        let mut signature: Option<Base64> = None;
        while let Some(member) = members.next_key()? {
            match member {
                RowMember::Operation => operation = members.next_value()?,
                RowMember::Scheme => scheme = members.next_value()?,
                RowMember::Key => key = members.next_value()?,
                RowMember::Message => message = members.next_value()?,
                RowMember::Signature => signature = members.next_value()?,
                RowMember::Other => {
                    members.next_value::<Ignored>()?;
                }
            }
        }
        let operation: Operation = named(required(operation, "operation")?, Operation::named)?;
        let scheme = scheme.as_ref().map(|text| text.0.as_ref());
        Ok(Row {
            operation,
            scheme: operation.scheme(scheme).ok_or_else(|| A::Error::custom("no such scheme"))?,
            key: required(key, "key")?.0,
            message: required(message, "message")?.0,
            signature: required(signature, "signature")?.0,
        })
    }
}
