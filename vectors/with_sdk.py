#!/usr/bin/env python3
"""Checks the vectors with the AWS Encryption SDK for Python, where that is installed.

  pip install 'aws-encryption-sdk[MPL]'
  vectors/with_sdk.py

It opens each message of manifest.json by the SDK, and wants each altered one to be refused. Then it
encrypts each text by the SDK, under the suite 0x0478, and decrypts it by `esdk`, which is ../esdk,
or the program that ESDK names.
"""

import base64
import json
import pathlib
import sys

import aws_encryption_sdk
from aws_cryptographic_material_providers.mpl import AwsCryptographicMaterialProviders
from aws_cryptographic_material_providers.mpl.config import MaterialProvidersConfig
from aws_cryptographic_material_providers.mpl.models import (
    AesWrappingAlg,
    CreateMultiKeyringInput,
    CreateRawAesKeyringInput,
)
from aws_encryption_sdk import CommitmentPolicy
from aws_encryption_sdk.identifiers import AlgorithmSuite

from make import MESSAGES, PROVIDER, esdk, text_of

HERE = pathlib.Path(__file__).resolve().parent
CLIENT = aws_encryption_sdk.EncryptionSDKClient(commitment_policy=CommitmentPolicy.REQUIRE_ENCRYPT_REQUIRE_DECRYPT)
PROVIDERS = AwsCryptographicMaterialProviders(config=MaterialProvidersConfig())
KEYS = json.loads((HERE / "keys.json").read_text())["keys"]
TESTS = json.loads((HERE / "manifest.json").read_text())["tests"]


def file(address):
    return (HERE / address.removeprefix("file://")).read_bytes()


def raw_keyring(key, provider):
    return PROVIDERS.create_raw_aes_keyring(
        input=CreateRawAesKeyringInput(
            key_namespace=provider,
            key_name=KEYS[key]["key-id"],
            wrapping_key=base64.b64decode(KEYS[key]["material"]),
            wrapping_alg=AesWrappingAlg.ALG_AES256_GCM_IV12_TAG16,
        )
    )


def keyring(specs):
    rings = [raw_keyring(spec["key"], spec["provider-id"]) for spec in specs]
    if len(rings) == 1:
        return rings[0]
    return PROVIDERS.create_multi_keyring(input=CreateMultiKeyringInput(generator=rings[0], child_keyrings=rings[1:]))


def is_as_wanted(test):
    """Whether the SDK opens the message to its text, or refuses it, as the test wants."""
    wanted = test["result"].get("output")
    try:
        text, _ = CLIENT.decrypt(source=file(test["ciphertext"]), keyring=keyring(test["master-keys"]))
    except Exception as error:  # pylint: disable=broad-except
        if wanted:
            print(f"  {type(error).__name__}: {error}")
        return not wanted
    return bool(wanted) and text == file(wanted["plaintext"])


def is_read_here(length, frame, names, context):
    """Whether `esdk` decrypts what the SDK encrypts."""
    specs = [{"key": name, "provider-id": PROVIDER} for name in names]
    length_asked = frame if frame and frame % 16 == 0 else 4096
    message, _ = CLIENT.encrypt(
        source=text_of(length),
        keyring=keyring(specs),
        encryption_context=context,
        frame_length=length_asked,
        algorithm=AlgorithmSuite.AES_256_GCM_HKDF_SHA512_COMMIT_KEY,
    )
    ran = esdk(["decrypt"], names[-1:], message)
    return (ran.returncode, ran.stdout) == (0, text_of(length)) and json.loads(ran.stderr) == context


def main():
    wrong = 0
    for name, test in TESTS.items():
        if not is_as_wanted(test):
            wrong += 1
            print(f"the SDK differs: {name}: {test['description']}, {test['ciphertext']}")
    for name, (_, length, frame, names, context) in MESSAGES.items():
        if not is_read_here(length, frame, names, context):
            wrong += 1
            print(f"esdk doesn't read what the SDK wrote: {name}")
    print(f"{len(TESTS)} tests by the SDK, {len(MESSAGES)} messages of the SDK by esdk: {wrong} differ")
    sys.exit(1 if wrong else 0)


if __name__ == "__main__":
    main()
