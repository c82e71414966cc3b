"""What a gate finds, once more: the verdicts on the artifacts of a manifest and on their bundles, and the report of them. Manifests are read by
tools/gate_manifests.py, and the chain of trust is followed link by link by tools/verify_links.py.
"""
import hashlib
from types import SimpleNamespace

import verify_links as links
from case_table import hexed
from gate_manifests import Refused, read_manifest
from rekor_cases import debug


def bundle_verdict(read, artifact, bundle):
    """The name of the first link that fails, or what is known of a bundle that is verified."""
    case = SimpleNamespace(request=SimpleNamespace(
        trusted_root=read["roots"][artifact["root"]], bundle=bundle, now=read["now"], digest=artifact["digest"],
        policy=read["policies"][artifact["policy"]], accepted=set(read["accepted"])))
    for name, link in links.LINKS.items():
        try:
            link(case)
        except links.Fails:
            return name
    (origin, *_), _ = case.checkpoint
    return SimpleNamespace(body=case.body, proof=case.proof, origin=origin)


def holds(rule, verified):
    name, held = rule
    return {"least": lambda: len({each.body for each in verified}) >= held,
            "origin": lambda: held in [each.origin for each in verified],
            "size": lambda: any(each.proof.size >= held for each in verified),
            "all": lambda: all(holds(inner, verified) for inner in held),
            "any": lambda: any(holds(inner, verified) for inner in held),
            "not": lambda: not holds(held, verified)}[name]()


def verdict(read, artifact):
    """Whether an artifact is admitted, and the verdicts on its bundles."""
    bundles = [bundle_verdict(read, artifact, bundle) for bundle in artifact["bundles"]]
    verified = [each for each in bundles if not isinstance(each, str)]
    return bool(verified) and holds(artifact["rule"], verified), bundles


def report_lines(read, verdicts):
    for artifact, (admitted, bundles) in zip(read["artifacts"], verdicts):
        denied = "deny none" if all(isinstance(each, str) for each in bundles) else "deny rule"
        yield "artifact %s %s\n" % (artifact["name"], "admit" if admitted else denied)
        for place, each in enumerate(bundles):
            found = "refused " + each if isinstance(each, str) else "verified %d %d" % (each.proof.index, each.proof.size)
            yield "bundle %d %s\n" % (place, found)
    yield "admitted %d of %d\n" % (sum(admitted for admitted, _ in verdicts), len(verdicts))


def bundle_words(found):
    if isinstance(found, str):
        return ["refused", found]
    proof = found.proof
    return ["verified", hashlib.sha256(found.body).hexdigest(), proof.index, proof.size, proof.root.hex(), len(proof.hashes), hexed(found.origin.encode())]


def returned(text):
    """What the call `gate` of gate_cases returns, and only the report."""
    try:
        read = read_manifest(text)
    except Refused as refused:
        return str(refused), None
    verdicts = [verdict(read, artifact) for artifact in read["artifacts"]]
    words = ["ok"]
    for admitted, bundles in verdicts:
        words += [str(admitted).lower(), len(bundles), *[word for each in bundles for word in bundle_words(each)]]
    report = "".join(report_lines(read, verdicts))
    words += [str(all(admitted for admitted, _ in verdicts)).lower(), debug(report)]
    return " ".join(map(str, words)), report
