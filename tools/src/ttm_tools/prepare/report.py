"""Repairs, as rows of a table."""

from dataclasses import dataclass

from ..gtfs.fault_report import escaped


@dataclass(frozen=True)
class Repaired:
    """A rule applied to a record."""

    file: str
    record: int
    column: str
    value: str
    rule: str
    done: str

    def row(self) -> list[object]:
        return [self.file, self.record, self.column, escaped(self.value), self.rule, escaped(self.done)]
