"""Keyring files, and the trees of keyrings that they give.

Written from the text of docs/FORMAT.md. A refusal is raised, with its line as text.
"""

import base64
import binascii
import json
import re

from cryptography.exceptions import InvalidTag
from cryptography.hazmat.primitives.ciphers.aead import AESGCM

from messages import context_text, raw_info, wrapped

MOST_NAME = 1024
MOST_LEVELS = 8
MOST_LEAVES = 64
MOST_OPEN = 127


class Refusal(Exception):
    """A keyring file is refused: number, name and values, as the report has them."""


class KeyringFault(Exception):
    """A keyring that was handed in failed."""


class Raw:
    """A raw AES key. A retired one opens and doesn't wrap."""

    def __init__(self, namespace, name, key, is_retired=False):
        self.namespace = namespace
        self.name = name
        self.key = key
        self.is_retired = is_retired

    def leaves(self):
        return [self]

    def refuses(self, has_key):
        return "Q5 NoGenerator" if self.is_retired and not has_key else None

    def wrap(self, iv, data_key, whole):
        return wrapped(self.namespace, self.name, self.key, iv, data_key, whole)

    def open(self, entries, whole):
        """The data key of the first entry that fits and opens; else None."""
        for entry in entries:
            iv = entry.info[-12:]
            if entry.provider != self.namespace or entry.info != raw_info(self.name, iv):
                continue
            if len(iv) < 12 or len(entry.cipher) != 48:
                continue
            try:
                return AESGCM(self.key).decrypt(iv, entry.cipher, context_text(whole))
            except InvalidTag:
                continue
        return None


class Plug:
    """A raw AES key whose bytes stand in a file, which is read at each call."""

    is_retired = False

    def __init__(self, name, namespace, key_name, shelf):
        self.name = name
        self.namespace = namespace
        self.key_name = key_name
        self.shelf = shelf

    def leaves(self):
        return [self]

    def refuses(self, has_key):
        return None

    def raw(self):
        try:
            key = self.shelf.read_whole("esdk.key", 32, piece=33)
        except OSError:
            raise KeyringFault from None
        if len(key) != 32:
            raise KeyringFault
        return Raw(self.namespace, self.key_name, key)

    def wrap(self, iv, data_key, whole):
        return self.raw().wrap(iv, data_key, whole)

    def open(self, entries, whole):
        return self.raw().open(entries, whole)


class Multi:
    """A multi-keyring."""

    def __init__(self, generator, children):
        self.generator = generator
        self.children = children

    def leaves(self):
        members = ([self.generator] if self.generator else []) + self.children
        return [leaf for member in members for leaf in member.leaves()]

    def refuses(self, has_key):
        if has_key and self.generator:
            return "Q6 GeneratorHasKey"
        if not has_key and not self.generator:
            return "Q5 NoGenerator"
        own = None if has_key else self.generator.refuses(False)
        of_children = (child.refuses(True) for child in self.children)
        return own or next((refusal for refusal in of_children if refusal), None)


def active(tree):
    """The leaves that wrap, in order."""
    return [leaf for leaf in tree.leaves() if not leaf.is_retired]


def wrap_all(tree, ivs, data_key, whole):
    return [leaf.wrap(iv, data_key, whole) for leaf, iv in zip(active(tree), ivs)]


def open_first(tree, entries, whole):
    """The data key of the first leaf in order that gives one. A leaf that fails is passed over."""
    failed = False
    for leaf in tree.leaves():
        try:
            data_key = leaf.open(entries, whole)
        except KeyringFault:
            failed = True
            continue
        if data_key is not None:
            return data_key
    if failed:
        raise KeyringFault
    return None


# Keyring files.


def is_json(bytes_):
    return bytes_.lstrip(b" \t\n\r")[:1] == b"{"


def read_tree(bytes_, plugs):
    """The tree that these bytes of a file give, with these plugs."""
    return JsonFile(plugs).tree(bytes_) if is_json(bytes_) else key_line(bytes_)


def key_line(bytes_):
    try:
        line = bytes_.decode("utf-8")
    except UnicodeDecodeError:
        raise Refusal("K2 BadShape 1") from None
    parts = line.split(" ")
    if len(parts) != 3 or not all(is_name(part) and part for part in parts[:2]):
        raise Refusal("K2 BadShape 1")
    if parts[0] == "aws-kms":
        raise Refusal("K4 ReservedNamespace")
    digits = parts[2][:-1] if parts[2].endswith("\n") else parts[2]
    if not re.fullmatch("[0-9A-Fa-f]{64}", digits, re.ASCII):
        raise Refusal("K3 BadKey 1")
    return Raw(parts[0].encode(), parts[1].encode(), bytes.fromhex(digits))


def is_name(text):
    return isinstance(text, str) and len(text.encode()) <= MOST_NAME


def refuse_constant(constant):
    raise ValueError(constant)


def finite(text):
    """A number with a point or an exponent; one beyond a double's range is no JSON to serde_json."""
    value = float(text)
    if value in (float("inf"), float("-inf")):
        raise ValueError(text)
    return value


def whole(text):
    """A number without them, of which the same holds. One with a sign is out of each range, and so is -0."""
    finite(text)
    return -0.0 if text == "-0" else int(text)


def most_open(text):
    """How many objects and lists are open at once at the most."""
    text = re.sub(r'"(?:[^"\\]|\\.)*"', "", text, flags=re.DOTALL)
    depth = most = 0
    for bracket in re.findall(r"[][{}]", text):
        depth += 1 if bracket in "{[" else -1
        most = max(most, depth)
    return most


def members_of(pairs):
    """An object, of whose members that stand twice the last counts; no text of it has a lone surrogate, nor has one that doesn't count."""
    json.dumps(pairs, ensure_ascii=False).encode("utf-8")
    return dict(pairs)


def json_value(bytes_):
    """The value of a JSON text as serde_json reads it."""
    try:
        text = bytes_.decode("utf-8")
        if most_open(text) > MOST_OPEN:
            raise ValueError("too deep")
        hooks = {"parse_constant": refuse_constant, "parse_float": finite, "parse_int": whole}
        value = json.loads(text, object_pairs_hook=members_of, **hooks)
        members_of([("", value)])
    except (ValueError, RecursionError):
        raise Refusal("K1 NotJson") from None
    return value


def has_members(value, required, allowed=()):
    if not isinstance(value, dict):
        return False
    return set(required) <= set(value) <= set(required) | set(allowed)


def is_version(value):
    return type(value) is int and value in (1, 2)


def decoded_key(text):
    """32 bytes of strict standard base64; else None."""
    try:
        key = base64.b64decode(text.encode("ascii"), validate=True)
    except (UnicodeEncodeError, binascii.Error):
        return None
    is_strict = base64.b64encode(key).decode() == text
    return key if len(key) == 32 and is_strict else None


class JsonFile:
    """A JSON file while its nodes are judged in the order of their numbers."""

    def __init__(self, plugs):
        self.plugs = list(plugs)
        self.version = None
        self.met = 0
        self.leaves = 0
        self.keys = {}

    def tree(self, bytes_):
        value = json_value(bytes_)
        if not has_members(value, ["version", "ring"]) or not is_version(value["version"]):
            raise Refusal("K2 BadShape 0")
        self.version = value["version"]
        return self.node(value["ring"], 1)

    def node(self, value, level):
        self.met += 1
        place = self.met
        kind = kind_of(value, self.version)
        if kind is None:
            raise Refusal(f"K2 BadShape {place}")
        if level > MOST_LEVELS:
            raise Refusal("K6 TooDeep")
        if kind == "raw":
            return self.raw(value["raw"], place)
        return self.plug(value["plug"]) if kind == "plug" else self.multi(value["multi"], level)

    def raw(self, members, place):
        if members["namespace"] == "aws-kms":
            raise Refusal("K4 ReservedNamespace")
        key = decoded_key(members["key"])
        if key is None:
            raise Refusal(f"K3 BadKey {place}")
        names = (members["namespace"], members["name"])
        if self.keys.setdefault(names, key) != key:
            raise Refusal(f"K5 ClashingKeys {json_text(names[0])} {json_text(names[1])}")
        self.add_leaf()
        return Raw(names[0].encode(), names[1].encode(), key, members.get("retired", False))

    def plug(self, name):
        plug = self.plug_left(name)
        self.add_leaf()
        return plug

    def plug_left(self, name):
        for plug in self.plugs:
            if plug.name == name:
                self.plugs.remove(plug)
                return plug
        raise Refusal(f"K8 NoSuchPlug {json_text(name)}")

    def add_leaf(self):
        self.leaves += 1
        if self.leaves > MOST_LEAVES:
            raise Refusal("K7 TooManyLeaves")

    def multi(self, members, level):
        generator = self.node(members["generator"], level + 1) if "generator" in members else None
        children = [self.node(child, level + 1) for child in members.get("children", [])]
        return Multi(generator, children)


def kind_of(value, version):
    """Which of the three forms a node has; None where it has none of them."""
    if has_members(value, ["raw"]) and is_raw(value["raw"], version):
        return "raw"
    if has_members(value, ["plug"]) and isinstance(value["plug"], str):
        return "plug"
    if has_members(value, ["multi"]) and is_multi(value["multi"]):
        return "multi"
    return None


def is_raw(members, version):
    allowed = ["retired"] if version == 2 else []
    if not has_members(members, ["namespace", "name", "key"], allowed):
        return False
    is_named = all(is_name(members[name]) for name in ("namespace", "name"))
    return is_named and isinstance(members["key"], str) and isinstance(members.get("retired", False), bool)


def is_multi(members):
    if not has_members(members, [], ["generator", "children"]):
        return False
    children = members.get("children", [])
    return isinstance(children, list) and ("generator" in members or len(children) > 0)


def json_text(text):
    return json.dumps(text, ensure_ascii=False)
