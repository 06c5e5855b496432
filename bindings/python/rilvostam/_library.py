"""The shared object, and the C functions of it: each declared when it is first asked for."""

import ctypes
import ctypes.util
import os
import sys
from functools import lru_cache
from pathlib import Path
from typing import Any, Callable, Dict, List

_BYTES = [ctypes.c_char_p, ctypes.c_size_t]
_OUT = [ctypes.c_void_p, ctypes.c_size_t]
_PART = [ctypes.c_void_p, ctypes.c_size_t]
_U64 = ctypes.c_uint64
_U8 = ctypes.c_uint8
_AT = ctypes.POINTER(ctypes.c_uint64)
_FLAG = ctypes.POINTER(ctypes.c_uint8)

EDGE_NUMBERS = 19

_CALL = _BYTES * 3 + _OUT * 2 + [_AT]
_READ = _BYTES * 2
_FUNCTIONS: Dict[str, List[Any]] = {
    "version": [],
    "add_numbers": _CALL,
    "add_numbers_without_singles": _CALL,
    "add_numbers_with_decimals": _CALL,
    "add_numbers_to_lines": _PART + _BYTES + _OUT * 2 + [_AT, _AT],
    "best_edge": _READ + [_U64, _U64, _U8, _AT],
    "right_neighbor": _READ + [_U64, _U8, _AT],
    "left_neighbor": _READ + [_U64, _U8, _AT],
    "nearest_number": _READ + [_U64, _AT],
    "path": _READ + [_U64, _U64, _U8] + _OUT + [_AT],
    "shown_text": _READ + [_U64, _AT, _AT, _FLAG],
    "pool_shares": _READ + [_AT, _AT, _AT],
    "write_number": [_U64] + _OUT + [_AT],
    "read_field": _BYTES + [_FLAG, _AT],
    "weights": _BYTES + _OUT + [_AT],
    "worn_character": _BYTES + _OUT + [_AT],
    "proof_sheet": [_U64] + _OUT + [_AT, _AT],
    "plain_table": _OUT + [_AT],
    "formal_table": _OUT + [_AT],
    "check_table": _BYTES + [_AT],
    "regular_table": _BYTES + [_AT],
    "edge_at": _BYTES + [_U64, ctypes.POINTER(ctypes.c_uint64 * EDGE_NUMBERS), _AT],
}


@lru_cache(maxsize=None)
def _library() -> ctypes.CDLL:
    named = os.environ.get("RILVOSTAM_LIBRARY")
    if named:
        return ctypes.CDLL(named)
    beside = Path(__file__).with_name("librilvostam.so")
    prefix = Path(sys.prefix) / "lib" / "librilvostam.so"
    for path in (beside, prefix):
        if path.exists():
            return ctypes.CDLL(str(path))
    found = ctypes.util.find_library("rilvostam")
    if found:
        return ctypes.CDLL(found)
    raise OSError(
        "librilvostam.so was not found: not beside the module, not where the system looks; "
        "RILVOSTAM_LIBRARY may name it, and tools/install puts it where it is found"
    )


@lru_cache(maxsize=None)
def function(name: str) -> Callable[..., int]:
    """The C function rilvostam_NAME, with its types."""
    try:
        found: Any = getattr(_library(), "rilvostam_" + name)
    except AttributeError:
        raise OSError(f"this librilvostam.so has no rilvostam_{name}: it is of another version") from None
    found.argtypes = _FUNCTIONS[name]
    found.restype = ctypes.c_uint32
    called: Callable[..., int] = found
    return called
