"""Which COSE messages are good (RFC 9052). `verify(message, keys)` gives the payload of one, or raises `Refused`; `Gate` has all calls of the
library, also for sequences."""

from __future__ import annotations

import functools
from typing import Optional

from cose_gate.crypto import is_good
from cose_gate.gate import (
    Checked, Gate, GateError, IsGood, Item, KeyParts, KeysError, Lent, LimitsError, NoRoomError, Question, Refused, Signature, StoppedError, Terms,
    items_of, questions_of,
)  # fmt: skip

__all__ = [
    "Checked", "Gate", "GateError", "IsGood", "Item", "KeyParts", "KeysError", "Lent", "LimitsError", "NoRoomError", "Question", "Refused",
    "Signature", "StoppedError", "Terms", "is_good", "items_of", "questions_of", "verify",
]  # fmt: skip


@functools.lru_cache(maxsize=1)
def _gate() -> Gate:
    return Gate()


def verify(message: Lent, keys: Lent, aad: Lent = b"", token: Optional[Terms] = None, is_good: IsGood = is_good) -> bytes:
    """The payload of the one message that these bytes are, a COSE_Sign1 or COSE_Mac0, if it is good under a key of the COSE_KeySet `keys`; else
    raises `Refused`, which says why. With `token` it has to be a token whose claims pass. MACs are checked by hashlib, signatures by the package
    cryptography, unless `is_good` is another. `KeysError`: the keys are no key set. `StoppedError`: memory ran out."""
    try:
        return _gate().verify(keys, aad, message, is_good, token)
    except StoppedError as fault:
        # What isn't one message is refused as any other.
        if str(fault) == "Memory" or str(fault).endswith("memory"):
            raise
        raise Refused(str(fault)) from None
