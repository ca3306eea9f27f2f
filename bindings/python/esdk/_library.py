"""libesdk.so.1, by ctypes: its functions with their types, and how memory of Python is lent to it.

ctypes lets go of the interpreter's lock while a function of the library runs.
"""

from __future__ import annotations

import ctypes
import os
import pathlib
from ctypes import POINTER, byref, c_bool, c_int, c_int32, c_size_t, c_ssize_t, c_uint16, c_uint32, c_uint64, c_void_p
from typing import Any, Optional

ABI = 1
NAME = "libesdk.so.1"


class Handle(ctypes.Structure):
    """What esdk.h calls esdk_handle. Only the library reads or writes the fields; it is never copied."""

    _fields_ = [("state", c_void_p), ("live", c_bool)]


# A pointer is an address, which ctypes takes sooner than an object of a type: a handle's, a room's or a number's. It takes a
# length as soon, too, where that stands as one: both are numbers of 64 bits, and are passed alike.
_HANDLE = c_void_p
_LENGTH = c_void_p
_BYTES = [c_void_p, _LENGTH]
_COUNTS = [c_void_p, c_void_p]
_FUNCTIONS: dict[str, tuple[Any, list[Any]]] = {
    "esdk_abi": (c_uint32, []),
    "esdk_check": (c_int32, []),
    "esdk_new": (c_int32, [_HANDLE, *_BYTES]),
    "esdk_close": (None, [_HANDLE]),
    "esdk_again": (c_int32, [_HANDLE]),
    "esdk_pair": (c_int32, [_HANDLE, *_BYTES, *_BYTES]),
    "esdk_require": (c_int32, [_HANDLE, *_BYTES]),
    "esdk_seal": (c_int32, [_HANDLE, c_uint32, _LENGTH, c_uint16]),
    "esdk_open": (c_int32, [_HANDLE, c_uint16, c_uint64, c_bool]),
    "esdk_reseal": (c_int32, [_HANDLE, *_BYTES, c_uint32, c_uint16, c_uint64, c_bool]),
    "esdk_feed": (c_int32, [_HANDLE, *_BYTES, *_BYTES, *_COUNTS]),
    "esdk_finish": (c_int32, [_HANDLE, *_BYTES, *_COUNTS]),
    "esdk_whole": (c_int32, [_HANDLE, *_BYTES, *_BYTES, *_COUNTS]),
    "esdk_take": (c_int32, [_HANDLE, *_BYTES, *_COUNTS]),
    "esdk_error": (c_size_t, [_HANDLE, *_BYTES]),
    "esdk_pairs": (c_int32, [_HANDLE]),
    "esdk_pair_key": (c_int32, [_HANDLE, c_size_t, *_BYTES]),
    "esdk_pair_value": (c_int32, [_HANDLE, c_size_t, *_BYTES]),
    "esdk_list": (c_int32, [*_BYTES, c_bool, *_BYTES, c_void_p]),
    "esdk_openers": (c_int32, [_HANDLE, *_BYTES, c_void_p, c_size_t, c_void_p]),
    "esdk_span": (c_int32, [*_BYTES, c_bool, c_uint64, c_uint64, c_void_p, c_void_p, c_void_p, c_void_p]),
    "esdk_range": (c_int32, [_HANDLE, *_BYTES, c_uint64, *_BYTES, c_bool, c_bool, c_uint64, *_BYTES, c_void_p]),
}


def place() -> str:
    """Where the library is: what ESDK_LIBRARY names (a file, or its folder), beside this file, or where the loader looks."""
    named = os.environ.get("ESDK_LIBRARY")
    if named:
        # A name without a folder would be looked for where the loader looks.
        folder = pathlib.Path(named).absolute()
        return str(folder / NAME if folder.is_dir() else folder)
    beside = pathlib.Path(__file__).with_name(NAME)
    return str(beside) if beside.exists() else NAME


def load() -> ctypes.CDLL:
    """The library, once it is known to fit. The ABI is looked at before any other function is called."""
    try:
        library = ctypes.CDLL(place())
        for name, (result, words) in _FUNCTIONS.items():
            function = getattr(library, name)
            function.restype, function.argtypes = result, words
    except (OSError, AttributeError) as error:
        raise ImportError(f"no fitting {NAME}: {error}") from error
    if library.esdk_abi() != ABI:
        raise ImportError(f"{library._name} has the ABI {library.esdk_abi()}, and {ABI} is wanted")
    if library.esdk_check() != 0:
        raise ImportError(f"{library._name} doesn't run on this processor: code {library.esdk_check()}")
    return library


class _Buffer(ctypes.Structure):
    """Python's Py_buffer."""

    _fields_ = [
        ("buf", c_void_p),
        ("obj", c_void_p),
        ("len", c_ssize_t),
        ("itemsize", c_ssize_t),
        ("readonly", c_int),
        ("ndim", c_int),
        ("format", c_void_p),
        ("shape", c_void_p),
        ("strides", c_void_p),
        ("suboffsets", c_void_p),
        ("internal", c_void_p),
    ]


_get = ctypes.pythonapi.PyObject_GetBuffer
_get.restype, _get.argtypes = c_int, [ctypes.py_object, POINTER(_Buffer), c_int]
_release = ctypes.pythonapi.PyBuffer_Release
_release.restype, _release.argtypes = None, [POINTER(_Buffer)]
_SIMPLE, _WRITABLE = 0, 1
_make = ctypes.pythonapi.PyBytes_FromStringAndSize
_make.restype, _make.argtypes = ctypes.py_object, [c_void_p, c_ssize_t]
_place = ctypes.pythonapi.PyBytes_AsString
_place.restype, _place.argtypes = c_void_p, [ctypes.py_object]


def unfilled(size: int) -> tuple[bytes, int]:
    """New bytes, at least one, and their address. They may be written before anybody else has them."""
    made = _make(None, size)
    return made, _place(made)


# For an empty piece, whose address may be NULL.
_nothing = ctypes.create_string_buffer(1)
NOTHING = ctypes.addressof(_nothing)


class Lent:
    """The memory of a bytes-like object, in its place and without a copy, as long as the `with` lasts.

    Nothing can free or move it as long as that lasts. Of `bytes` that are read, which never move, ctypes takes the
    address by itself: so they stand for it.
    """

    def __init__(self, data: Any, writable: bool = False) -> None:
        self._data = data
        self._writable = writable
        self._buffer: Optional[_Buffer] = None

    def __enter__(self) -> tuple[Any, int]:
        if type(self._data) is bytes and not self._writable:
            return self._data, len(self._data)
        buffer = _Buffer()
        _get(self._data, byref(buffer), _WRITABLE if self._writable else _SIMPLE)
        self._buffer = buffer
        return buffer.buf or NOTHING, buffer.len

    def __exit__(self, *_: object) -> None:
        if self._buffer is not None:
            _release(byref(self._buffer))
