package sigverify

import (
	"bytes"
	"crypto/ecdsa"
	"crypto/elliptic"
	"crypto/sha256"
	"crypto/sha512"
	"crypto/x509"
	"encoding/base64"
)

// A way is how signatures are made: under keys on which curve, over which digest. A nil curve is any of the three.
type way struct {
	curve  elliptic.Curve
	digest func([]byte) []byte
}

func by256(message []byte) []byte { sum := sha256.Sum256(message); return sum[:] }
func by384(message []byte) []byte { sum := sha512.Sum384(message); return sum[:] }
func by512(message []byte) []byte { sum := sha512.Sum512(message); return sum[:] }

var schemes = map[string]way{
	"ECDSA_P256_SHA256_ASN1": {elliptic.P256(), by256},
	"ECDSA_P384_SHA384_ASN1": {elliptic.P384(), by384},
	"ECDSA_P521_SHA512_ASN1": {elliptic.P521(), by512},
}

// By the base64 of the AlgorithmIdentifiers of certificates, RFC 5758 section 3.2.
var algorithms = map[string]way{
	identifier(2): {nil, by256},
	identifier(3): {nil, by384},
	identifier(4): {nil, by512},
}

func identifier(last byte) string {
	der := []byte{0x30, 10, 6, 8, 0x2a, 0x86, 0x48, 0xce, 0x3d, 4, 3, last}
	return base64.StdEncoding.EncodeToString(der)
}

// IsGenuineECDSA tells whether crypto/ecdsa verifies the signature of a row. Of any other kind of key or signature, and of
// what it cannot read, it is false.
func IsGenuineECDSA(row Row) bool {
	switch row.Operation {
	case "message":
		found, known := schemes[row.Scheme]
		return known && isSigned(spkiKey(row.Key), found.curve, found.digest(row.Message), row.Signature)
	case "prehash":
		found, known := schemes[row.Scheme]
		return known && isSigned(spkiKey(row.Key), found.curve, row.Message, row.Signature)
	case "certificate":
		found, known := algorithms[row.Scheme]
		return known && isSigned(spkiKey(row.Key), nil, found.digest(row.Message), row.Signature)
	case "point":
		return row.Scheme == "" && isSigned(pointKey(row.Key), elliptic.P256(), by256(row.Message), row.Signature)
	}
	return false
}

func isSigned(key *ecdsa.PublicKey, curve elliptic.Curve, digest, signature []byte) bool {
	return key != nil && (curve == nil || key.Curve == curve) && ecdsa.VerifyASN1(key, digest, signature)
}

// spkiKey reads a SubjectPublicKeyInfo; nil where it is not a key on one of the three curves, or has other bytes than that.
func spkiKey(spki []byte) *ecdsa.PublicKey {
	read, err := x509.ParsePKIXPublicKey(spki)
	key, is := read.(*ecdsa.PublicKey)
	if err != nil || !is || key.Curve == elliptic.P224() {
		return nil
	}
	if again, err := x509.MarshalPKIXPublicKey(key); err != nil || !bytes.Equal(again, spki) {
		return nil
	}
	return key
}

func pointKey(point []byte) *ecdsa.PublicKey {
	x, y := elliptic.Unmarshal(elliptic.P256(), point)
	if x == nil {
		return nil
	}
	return &ecdsa.PublicKey{Curve: elliptic.P256(), X: x, Y: y}
}
