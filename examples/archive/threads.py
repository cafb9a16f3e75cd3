"""Threads of mails, as trees: by References, then by subject, after Jamie Zawinski (https://www.jwz.org/doc/threading.html).

`trees` takes what mails say of themselves, in any order, and returns each id with its parent. The result is a forest: each
id occurs once, and no id is above itself. It depends on the set of mails alone, and not on the order in which they
come. An id to which mails refer, but which no mail has, is a node if two mails or more are below it.
"""
import collections
import re
from typing import NamedTuple

# `Re:`, `Fwd:` and the like, also as other languages have them, with a count, and the names of lists in brackets. A match
# takes linear time: nothing that may be empty is between two runs of whitespace
REPLY = re.compile(r"\s*((re|aw|sv|vs|antw|odp|ref|rv|res|r|fwd?|wg|tr|i)(\s*(\[\d+\]|\(\d+\)|\^\d+))?\s*[:\uff1a]|\[[^]]*\])\s*", re.IGNORECASE)
NEVER = float("inf")


class Sent(NamedTuple):
    """What a mail says of itself. Its subject is what `base_subject` returns; the ids to which it refers are in their order,
    its parent last."""

    id: str
    date: "int | None"
    subject: str
    is_reply: bool
    references: "tuple[str, ...]"


def order_of(mail):
    """Returns the key of the order of mails: those without a date are last. A tuple of the members of `Sent` has one too."""
    return NEVER if mail[1] is None else mail[1], mail


def base_subject(subject):
    """Returns a subject without `Re:` and the like, and whether it is one of a reply."""
    at, is_reply = 0, False
    while found := REPLY.match(subject, at):
        is_reply = is_reply or not found[1].startswith("[")
        at = found.end()
    return " ".join(subject[at:].split()).casefold(), is_reply


def linked(mails):
    """Returns the parent of each id that mails have or refer to. A mail that refers to none has the parent that the first
    mail says which refers to both. `mails` are in order."""
    parents = {}
    for mail in mails:
        for above, below in zip(mail.references, mail.references[1:]):
            if above != below:
                parents.setdefault(below, above)
    for mail in mails:
        if mail.references and mail.references[-1] != mail.id:
            parents[mail.id] = mail.references[-1]
    for one in [*(mail.id for mail in mails), *parents.values()]:
        parents.setdefault(one, None)
    return parents


def without_cycles(parents, ranks):
    """Ends each cycle at its first mail, which becomes the top of a thread. Ids that no mail has come last."""
    visits = {}
    for start in list(parents):
        one = start
        while one is not None and one not in visits:
            visits[one] = start
            one = parents[one]
        if one is not None and visits[one] == start:
            cycle = [one]
            while parents[cycle[-1]] != one:
                cycle.append(parents[cycle[-1]])
            parents[min(cycle, key=lambda it: (ranks.get(it, len(ranks)), it))] = None
    return parents


def nearest(starts, parents, stops=()):
    """Returns for each of these ids the first of it and those above it that is one of `stops` or the top of its thread."""
    found = {}
    for one in starts:
        way = []
        while one not in found and one not in stops and parents[one] is not None:
            way.append(one)
            one = parents[one]
        end = found.setdefault(one, one)
        found.update(dict.fromkeys(way, end))
    return found


def without_empty(parents, ids):
    """Leaves out ids that no mail has, but for those at a top that hold two threads or more together."""
    ends = nearest(parents.keys() - ids, parents, ids)
    kept = {one: ends.get(above, above) for one, above in parents.items() if one in ids}
    counts = collections.Counter(above for above in kept.values() if above is not None and above not in ids)
    kept.update((one, None) for one, count in counts.items() if count > 1)
    return {one: above if above in kept else None for one, above in kept.items()}


def by_subject(parents, mails):
    """Puts replies whose parent is unknown below the first mail with their subject, which is no reply if one is not."""
    roots = [mail for mail in mails if mail.subject and parents[mail.id] is None]
    firsts = {mail.subject: mail.id for mail in reversed(sorted(roots, key=lambda mail: mail.is_reply))}
    for mail in roots:
        if mail.is_reply and firsts[mail.subject] != mail.id:
            parents[mail.id] = firsts[mail.subject]
    return parents


def trees(mails):
    """Returns the parent of each id, or None at the top of a thread. Of mails with one id the first in order counts."""
    of = {}
    for mail in sorted(mails, key=order_of):
        of.setdefault(mail.id, mail)
    ordered = list(of.values())
    ranks = {one: rank for rank, one in enumerate(of)}
    return by_subject(without_empty(without_cycles(linked(ordered), ranks), of.keys()), ordered)


def tops_of(parents):
    """Returns the top of the thread of each id."""
    return nearest(parents, parents)
