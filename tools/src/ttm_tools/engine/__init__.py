"""The engine `ttm` as a process: `arguments` of a run, `process` for one run, `conversation` for many questions.

`refusals` turns what the engine prints into errors, `inputs` writes its input files, and `pool` keeps several
conversations with the same network.
"""

from importlib import import_module

from ..core.deprecation import warn_renamed

# Names that this module had until version 2.1, and where they are now; they go with the next version.
MOVED = {
    "EngineFault": ("ttm_tools.engine.refusals", "EngineError"),
    "Result": ("ttm_tools.matrices.result", "Result"),
    "Run": ("ttm_tools.engine.arguments", "EngineArguments"),
    "matrix": ("ttm_tools.compat.v2", "matrix"),
    "program_at": ("ttm_tools.engine.arguments", "program_at"),
    "run": ("ttm_tools.compat.v2", "run"),
}


def __getattr__(name: str) -> object:
    """Return an object under its old name, with a `DeprecationWarning`."""
    if name not in MOVED:
        raise AttributeError(f"module {__name__!r} has no attribute {name!r}")
    module, new = MOVED[name]
    warn_renamed(f"{__name__}.{name}", f"{module}.{new}")
    return getattr(import_module(module), new)
