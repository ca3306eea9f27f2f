"""A keyring file written anew, in version 2.

Written from the text of docs/FORMAT.md.
"""

import base64

from keyrings import JsonFile, Refusal, is_json, json_text, json_value, key_line


class Shape(JsonFile):
    """A JSON file that is judged without plugs: each name is one that may be handed in."""

    def plug_left(self, name):
        return None


class Migration:
    """The text of a file's nodes, while they are written in the order of their numbers."""

    def __init__(self, retire):
        self.retire = retire
        self.met = 0
        self.has_retired = retire is None

    def node(self, value):
        self.met += 1
        if "raw" in value:
            return f'{{"raw":{self.raw(value["raw"])}}}'
        if "plug" in value:
            return f'{{"plug":{json_text(value["plug"])}}}'
        return f'{{"multi":{self.multi(value["multi"])}}}'

    def raw(self, members):
        is_named = self.met == self.retire
        self.has_retired = self.has_retired or is_named
        texts = ",".join(f'"{name}":{json_text(members[name])}' for name in ("key", "name", "namespace"))
        retired = ',"retired":true' if is_named or members.get("retired", False) else ""
        return f"{{{texts}{retired}}}"

    def multi(self, members):
        """The generator's nodes have the lower numbers, and its text stands behind."""
        generator = [f'"generator":{self.node(members["generator"])}'] if "generator" in members else []
        children = ",".join(self.node(child) for child in members.get("children", []))
        written = ([f'"children":[{children}]'] if "children" in members else []) + generator
        return f"{{{','.join(written)}}}"


def migrate(bytes_, retire):
    """What these bytes of a keyring file are in version 2, with the raw node of this number retired."""
    migration = Migration(retire)
    ring = migration.node(ring_of(bytes_))
    if not migration.has_retired:
        raise Refusal(f"K11 NotRaw {retire}")
    return f'{{"ring":{ring},"version":2}}\n'.encode()


def ring_of(bytes_):
    """The value of a file's top node; a key line gives one raw node."""
    if is_json(bytes_):
        Shape([]).tree(bytes_)
        return json_value(bytes_)["ring"]
    raw = key_line(bytes_)
    key = base64.b64encode(raw.key).decode()
    return {"raw": {"key": key, "name": raw.name.decode(), "namespace": raw.namespace.decode()}}
