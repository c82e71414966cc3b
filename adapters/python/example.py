#!/usr/bin/python3
"""Verifies the bundle of an artifact: example.py TRUSTED_ROOT BUNDLE ARTIFACT IDENTITY ISSUER NOW"""
import hashlib
import pathlib
import sys

sys.dont_write_bytecode = True
import sigverify

trusted_root, bundle, artifact = map(pathlib.Path, sys.argv[1:4])
identity, issuer, now = sys.argv[4:]
digest = "sha256:" + hashlib.sha256(artifact.read_bytes()).hexdigest()
policy = {"all": [{"identity": identity, "issuer": issuer}]}
status, text = sigverify.verify(trusted_root.read_text(), bundle.read_text(), digest, policy, int(now))
sys.stdout.write(text.decode())
sys.exit(status)
