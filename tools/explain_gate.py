"""What `explain gate` writes, once more: for each artifact its bundles, each as `explain verify` shows it. Manifests are read and judged as
gate_requests.py does."""
import gate_requests as gates
from explain_requests import request_refusal
from explain_shown import line
from explain_verify import case_explanation
from gate_verdicts import verdict


def artifact_explanation(read, artifact):
    admitted, _ = verdict(read, artifact)
    bundles = [case_explanation(gates.case_of(read, artifact, bundle)) for bundle in artifact["bundles"]]
    return {"admitted": "yes" if admitted else "no", "bundles": bundles, "name": artifact["name"]}


def gate_explanation(text):
    refused = request_refusal("gate", text)
    if refused:
        return refused
    read = gates.read_request(text)
    return {"artifacts": [artifact_explanation(read, each) for each in read["artifacts"]]}


def lines(text):
    """What is written, without its last newline, and the status."""
    reply, status = gates.lines(text)
    return reply + "\n" + line(gate_explanation(text)), status
