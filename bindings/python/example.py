"""Seals a file, opens the message, and compares: python3 example.py KEYRING FILE"""

import sys

import esdk

ring = esdk.Keyring.from_file(sys.argv[1])
context = {"file": sys.argv[2]}
with open(sys.argv[2], "rb") as source:
    with esdk.stream(mode="e", source=source, keyring=ring, encryption_context=context) as sealing:
        message = sealing.read()
text, header = esdk.decrypt(source=message, keyring=ring)
with open(sys.argv[2], "rb") as source:
    print("the text came back:", text == source.read() and header.encryption_context == context)
try:
    esdk.decrypt(source=message[:-1], keyring=ring)
except esdk.MessageError as error:
    print(error.code, error.line)
