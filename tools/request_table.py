"""How the table of a command's requests and its examples are written, with the replies of a reader in this folder; and how the program's replies
are compared with that reader's."""
import json
import pathlib
import subprocess
import sys

EXAMPLES = pathlib.Path(__file__).resolve().parent.parent / "examples"


def write(command, groups, reply, examples, lines):
    """examples/COMMAND.requests: each group's title, and of each of its requests a line, and below it the reply with the status. And each
    example, with its reply as the program writes it."""
    with open(EXAMPLES / f"{command}.requests", "w", encoding="utf-8") as made:
        for title, requests in groups.items():
            made.write(f"# {title}\n")
            for found in requests():
                text = found if isinstance(found, str) else json.dumps(found, separators=(",", ":"))
                line, status = reply(text)
                made.write(f"{text}\n{line} status {status}\n")
    for name, found in examples:
        text = json.dumps(found, indent=2)
        (EXAMPLES / f"{name}.json").write_text(text + "\n")
        line, status = lines(text)
        (EXAMPLES / f"{name}.expected").write_text(f"{line}\nstatus {status}\n")


def count_differing(program, command, requests, lines):
    """How many replies of the program to these requests differ from those as the program writes them."""
    failed = count = 0
    for found in requests:
        text = json.dumps(found, separators=(",", ":"))
        done = subprocess.run([program, command], input=text, text=True, capture_output=True)
        said, wanted = (done.stdout.removesuffix("\n"), done.returncode), lines(text)
        count += 1
        if said != wanted:
            failed += 1
            print(f"{command} of {text[:200]}\n  gave {said} and not {wanted}", file=sys.stderr)
    print(f"{command}: {count} requests", file=sys.stderr)
    return failed
