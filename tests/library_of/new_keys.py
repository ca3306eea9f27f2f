#!/usr/bin/env python3
"""By bindings/python, a message of the text `hello` under backups.key, or the text of a message under new.key.

    new_keys.py make FILE
    new_keys.py text FILE
"""

import sys

import esdk

CONTEXT = {"set": "photos"}
what, name = sys.argv[1:]
if what == "make":
    ring = esdk.Keyring.from_file("backups.key")
    with open(name, "wb") as file:
        file.write(esdk.encrypt(source=b"hello", keyring=ring, encryption_context=CONTEXT)[0])
else:
    with open(name, "rb") as file:
        text, header = esdk.decrypt(source=file, keyring=esdk.Keyring.from_file("new.key"))
    print(text.decode() if header.encryption_context == CONTEXT else header)
