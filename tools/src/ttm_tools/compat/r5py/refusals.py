"""What isn't supported: each error names the argument and says what to do."""

from ...core.errors import ArgumentError


class NotAvailable(ArgumentError, ValueError):
    """An argument, or a value of it, that r5py takes and `ttm` can't serve."""

    def __init__(self, argument: str, what: str, instead: str) -> None:
        self.argument = argument
        super().__init__(f"{argument}: {what}; {instead}")
