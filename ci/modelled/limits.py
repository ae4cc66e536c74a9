"""The limits of a run and of its document, as crates/bsp_model/src/limits.rt names them."""
from __future__ import annotations

import os

from limits import limits_of

_LIMITS = limits_of(os.path.dirname(os.path.dirname(os.path.dirname(os.path.realpath(__file__)))))

MOST_PROCESSES = _LIMITS["MOST_PROCESSES"]
MOST_MEMORY_WORDS = _LIMITS["MOST_MEMORY_WORDS"]
MOST_ARGUMENTS = _LIMITS["MOST_ARGUMENTS"]
MOST_SUPERSTEPS = _LIMITS["MOST_SUPERSTEPS"]
HIGHEST_PRICE = _LIMITS["HIGHEST_PRICE"]
MOST_WORK = _LIMITS["MOST_WORK"]  # of a process in a superstep
MOST_REQUESTS = _LIMITS["MOST_REQUESTS"]  # of a process in a superstep
MOST_PAYLOAD_WORDS = _LIMITS["MOST_PAYLOAD_WORDS"]
MOST_TAG_WORDS = _LIMITS["MOST_TAG_WORDS"]
MOST_SLOTS = _LIMITS["MOST_SLOTS"]
MOST_LINES = _LIMITS["MOST_LINES"]  # of a process in a superstep
MOST_LINE_WORDS = _LIMITS["MOST_LINE_WORDS"]
MOST_DOCUMENT_BYTES = _LIMITS["MOST_DOCUMENT_BYTES"]
MOST_WORKERS = _LIMITS["MOST_WORKERS"]
