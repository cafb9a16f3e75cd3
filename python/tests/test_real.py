"""Real mails compared with Python's `email`: those in the directory that ROCKTRAY_REAL names (bench/fetch_real.sh)."""

import email
import email.policy
import os
from pathlib import Path

import pytest

import rocktray

DIRECTORY = os.environ.get("ROCKTRAY_REAL")
pytestmark = pytest.mark.skipif(not DIRECTORY, reason="ROCKTRAY_REAL names no directory of mails")


def real_mails():
    return [path.read_bytes() for path in sorted(Path(DIRECTORY).rglob("*")) if path.is_file()]


def share(judged):
    judged = list(judged)
    return sum(judged) / len(judged)


def own_leaves(message):
    """The leaves of an `email` message that are not in a mail inside it."""
    if message.get_content_maintype() == "multipart" and message.is_multipart():
        return [leaf for part in message.iter_parts() for leaf in own_leaves(part)]
    return [] if message.is_multipart() else [message]


def test_types_and_bytes():
    """Nearly all leaves have the type and the bytes that `email` finds. DIFFERENCES.md explains the others."""

    def is_same(raw):
        try:
            mail = rocktray.parse(raw)
            message = email.message_from_bytes(raw, policy=email.policy.default)
            wanted = [(leaf.get_content_type(), leaf.get_payload(decode=True)) for leaf in own_leaves(message)]
            leaves = [part for part in mail.walk() if not part.content_type.startswith(("multipart/", "message/"))]
            given = [(leaf.content_type, leaf.content) for leaf in leaves]
        except (rocktray.Refused, LookupError, ValueError, AttributeError, TypeError):
            return False
        shorter = min(len(given), len(wanted))
        return given[:shorter] == wanted[:shorter]

    mails = real_mails()
    assert len(mails) > 100
    assert share(map(is_same, mails)) > 0.8


def test_subjects():
    def is_same(raw):
        try:
            wanted = email.message_from_bytes(raw, policy=email.policy.default)["subject"]
            return rocktray.parse(raw).subject == (None if wanted is None else str(wanted))
        except (rocktray.Refused, ValueError, LookupError, AttributeError, TypeError):
            return False

    assert share(map(is_same, real_mails())) > 0.9
