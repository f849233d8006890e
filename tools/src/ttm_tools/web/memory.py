"""Freed memory goes back to the system, where the C library supports it (glibc)."""

import ctypes

LARGE = 1 << 22  # bytes; a lower threshold costs time, since the system clears the pages that it hands out
MMAP_THRESHOLD = -3  # M_MMAP_THRESHOLD of <malloc.h>


def give_back() -> None:
    """Return freed memory to the system now."""
    trim = getattr(ctypes.CDLL(None), "malloc_trim", None)
    if trim is not None:
        trim(0)


def give_back_at_once() -> None:
    """From now on, return each large block to the system as soon as it is freed.

    By default glibc raises its threshold up to 32 MB after it has seen blocks of such a size.
    """
    option = getattr(ctypes.CDLL(None), "mallopt", None)
    if option is not None:
        option(MMAP_THRESHOLD, LARGE)
