"""On which days the trips of a plan run: a service of the feed, or a new one."""

import itertools
from typing import Sequence

import numpy as np

from ..core.arrays import Mask
from ..core.toml_file import Entry
from ..gtfs.fields import WEEKDAYS
from .base import Base, free

EVERY = {"daily": WEEKDAYS, "weekdays": WEEKDAYS[:5], "weekend": WEEKDAYS[5:]}


def service_of(base: Base, entry: Entry, services: set[str]) -> str:
    """A service that runs on the days of all of these: one of them, or a new one."""
    names = sorted(services)
    if len(names) == 1:
        return names[0]
    for name in names:
        if name in base.endless:
            message = "has no end, and trips of other services run there too: choose one with service"
            raise entry.fault(f"{message}, of {', '.join(names)}", "service", name)
    rows = {name: runs_of(base, name) for name in names}
    union = np.any(list(rows.values()), axis=0)
    for name, runs in rows.items():
        if (runs == union).all():
            return name
    return new_service(base, "+".join(names), union)


def service_on(base: Base, entry: Entry, services: Sequence[str], runs: Mask) -> str:
    """A service for some of the days of the first of some services: one of these with the same days, or a new one."""
    for name in services:
        if (runs == runs_of(base, name)).all() and (name == services[0] or name not in base.endless):
            return name
    service = services[0]
    if service in base.endless:
        message = "has no end, and other trips run there on some of its days"
        raise entry.fault(f"{message}: end service {service} in calendar.txt", "times")
    dates = [base.days.day(int(place)) for place in np.flatnonzero(runs)]
    for number in itertools.count(1):
        name = free(f"{service}+{number}", base.service_numbers)
        if base.new_services.setdefault(name, dates) == dates:
            return name
    raise AssertionError("unreachable")


def runs_of(base: Base, name: str) -> Mask:
    """On which of the days that the calendars know a service runs."""
    if name not in base.new_services:
        return np.asarray(base.days.runs[base.service_numbers[name]], dtype=np.bool_)
    days_run = np.zeros(base.days.runs.shape[1], dtype=np.bool_)
    days_run[[day.toordinal() - base.days.first for day in base.new_services[name]]] = True
    return days_run


def new_service(base: Base, name: str, runs: Mask) -> str:
    """A service of the plan for some of the days that the calendars know, named so that none of the feed has it."""
    name = free(name, base.service_numbers)
    base.new_services[name] = [base.days.day(int(place)) for place in np.flatnonzero(runs)]
    return name


def service_named(base: Base, entry: Entry) -> str:
    """The service of a new line: one of the feed by its name, or one of days of the week."""
    if entry.one_of("service", "days") == "service":
        service = entry.text("service")
        entry.known("service", service, base.service_numbers, "is not a service of the feed")
        return service
    days = weekdays_of(entry)
    weekday = (base.days.first + np.arange(base.days.runs.shape[1]) - 1) % 7
    runs = np.isin(weekday, [WEEKDAYS.index(day) for day in days])
    if not runs.any():
        raise entry.fault("the feed's calendars have no such day", "days", " ".join(days))
    return new_service(base, "days-" + "".join(str(int(day in days)) for day in WEEKDAYS), runs)


def weekdays_of(entry: Entry) -> list[str]:
    """The days of the week that are named."""
    named = entry.texts("days")
    if len(named) == 1 and named[0] in EVERY:
        return list(EVERY[named[0]])
    what = "is not a day of the week; allowed are 'daily', 'weekdays', 'weekend' or a list"
    for day in named:
        entry.known("days", day, WEEKDAYS, what)
    return named
