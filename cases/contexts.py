"""What is judged of contexts and of what is asked for, before a message is written or opened.

Written from the text of docs/FORMAT.md.
"""

from endings import REFUSED, Ended
from keyrings import json_text
from messages import MOST_CONTEXT, Fault, context_length


def joined(stored, given, required):
    """The pairs that are authenticated only, and the whole context."""
    for key in sorted(required):
        if key not in given:
            raise Fault(f"M13 MissingRequired {json_text(key.decode())}")
    if b"aws-crypto-public-key" in stored:
        raise Fault("M11 ReservedKey")
    for key in sorted(stored):
        if key in given and given[key] != stored[key]:
            raise Fault(f"M12 ContextMismatch {json_text(key.decode())}")
    only = {key: given[key] for key in given if key not in stored}
    whole = {**stored, **only}
    if context_length(whole) > MOST_CONTEXT:
        raise Fault(f"M14 ContextTooLong {context_length(whole)}")
    return only, whole


def refuse_request(context, required, tree):
    for key in sorted(required):
        if key not in context:
            raise Ended(REFUSED, f"Q4 RequiredAbsent {json_text(key.decode())}")
    for key in sorted(context):
        if key.startswith(b"aws-crypto-"):
            raise Ended(REFUSED, f"Q1 ReservedPrefix {json_text(key.decode())}")
    if tree.refuses(False):
        raise Ended(REFUSED, tree.refuses(False))


def context_of(pairs):
    context = {}
    for key, value, _ in pairs:
        if value is None:
            continue
        if key in context:
            raise Ended(REFUSED, f"Q3 DuplicateKey {json_text(key.decode())}")
        longer = context_length({**context, key: value})
        if longer > MOST_CONTEXT:
            raise Ended(REFUSED, f"Q2 ContextTooLong {longer}")
        context[key] = value
    return context


def required_of(pairs):
    return {key for key, _, is_required in pairs if is_required}


def context_line(context):
    members = ",".join(
        f"{json_text(key.decode())}:{json_text(context[key].decode())}" for key in sorted(context)
    )
    return "{" + members + "}"
