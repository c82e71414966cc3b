"""The names of the signature schemes, in the order of `VerifyScheme` in crates/sig_base/src/scheme.rt."""

SCHEMES = ("RSA_PSS_SHA256", "RSA_PKCS1_SHA256", "ECDSA_P256_SHA256_ASN1", "ECDSA_P384_SHA384_ASN1", "ECDSA_P521_SHA512_ASN1", "ED25519")
SIZED = tuple(name for name in SCHEMES if name.startswith("RSA"))
# Those whose keys have one size first.
UNSIZED_FIRST = tuple(sorted(SCHEMES, key=lambda name: name in SIZED))


def others(scheme):
    """All but this one."""
    return tuple(name for name in SCHEMES if name != scheme)
