"""Warnings for old names, which stay for one version."""

import warnings


def warn_renamed(old: str, new: str, stacklevel: int = 3) -> None:
    """Issue a `DeprecationWarning` at the caller of the module's `__getattr__`."""
    warnings.warn(f"{old} is deprecated and will be removed: use {new}", DeprecationWarning, stacklevel)
