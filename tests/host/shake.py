"""What the tests of the SHAKE calls share: the two calls, their limit, and a call from Python."""

import ctypes
import hashlib

from support import Guarded, check

KINDS = [("kindi_shake128", hashlib.shake_128, 168), ("kindi_shake256", hashlib.shake_256, 136)]

# Place plus length is at most this, else the call is refused with this number.
LIMIT, PAST_LIMIT = 1048576, 15


def call(library, name, message, place, result, null=False, offset=0):
    """The status of one call that writes to a guarded buffer; with null, NULL is passed for a slice of no bytes."""
    source = Guarded(len(message), offset, message)
    function = getattr(library, name)
    function.restype = ctypes.c_uint32
    status = function(
        None if null and not message else source.pointer(), ctypes.c_size_t(len(message)), ctypes.c_size_t(place),
        None if null and not result.length else result.pointer(), ctypes.c_size_t(result.length))
    check(source.bytes() == message, f"{name}, {len(message)} bytes of input: the input was changed")
    return status
