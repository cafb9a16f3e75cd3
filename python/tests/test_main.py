"""`python3 -m rocktray`, beside Python's email."""

import email
import email.policy
import json
import subprocess
import sys


def run(*arguments):
    """What a command prints on both streams, and its exit status."""
    command = [sys.executable, "-m", "rocktray", *map(str, arguments)]
    ended = subprocess.run(command, capture_output=True, text=True, check=False)
    return [json.loads(line) for line in ended.stdout.splitlines()], ended.stderr, ended.returncode


def test_mails(samples, tmp_path):
    raw = samples["attachment"]
    path = tmp_path / "a.eml"
    path.write_bytes(raw)
    lines, errors, status = run(path, path)
    subject = email.message_from_bytes(raw, policy=email.policy.default)["Subject"]
    assert ([line["subject"] for line in lines], errors, status) == ([subject, subject], "", 0)


def test_mailbox(tmp_path):
    path = tmp_path / "a.mbox"
    path.write_bytes(b"".join(b"From a Fri Jul  8 12:08:34 2011\nSubject: %d\n\nx\n\n" % number for number in range(3)))
    lines, errors, status = run("--mbox", path)
    assert ([line["subject"] for line in lines], errors, status) == (["0", "1", "2"], "", 0)


def test_refused_and_missing(tmp_path):
    """The next file is read all the same."""
    refused, good = tmp_path / "refused.eml", tmp_path / "good.eml"
    refused.write_bytes(b"A:\n" * 1_000_000)
    good.write_bytes(b"Subject: Hi\n\n")
    lines, errors, status = run(refused, good)
    assert (list(lines[0]), lines[1]["subject"], errors, status) == (["error"], "Hi", "", 3)
    lines, errors, status = run(tmp_path / "gone\x1b.eml", good)
    assert ([line["subject"] for line in lines], status) == (["Hi"], 1)
    assert "\x1b" not in errors and errors.endswith("No such file or directory\n")
