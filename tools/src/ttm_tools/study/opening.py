"""The first screen of a report: one sentence, one map, one chart, one table by person. The rest is behind it."""

import datetime
import html
from dataclasses import dataclass

from ..core.text import display_text, markdown
from ..measures.person_changes import PersonChanges
from ..views.charts import grouped_short, people_shown, percent_of, signed_percent
from .document import Document
from .results.changes import ORDER, StudyChanges, study_changes
from .results.maps import maps_of
from .results.tables import LOSE, Records, StudyMatrix
from .settings import Study

LOSS, GAIN = "loss", "gain"  # classes of a text in the HTML


@dataclass(frozen=True)
class Part:
    """A piece of a sentence; a number has a tone."""

    text: str
    tone: str = ""


def write_opening(document: Document, whole: StudyMatrix, records: Records) -> None:
    """Writes the first screen, if the study has a table of access and a scenario."""
    if "access" not in records or not whole.others:
        return
    found = study_changes(whole)
    scenarios = list(found.after)
    for scenario in scenarios:
        parts = sentence_of(found.of(scenario), found, scenario if len(scenarios) > 1 else "")
        document.block(markdown("".join(part.text for part in parts)), f'<p class="lead">{as_html(parts)}</p>')
    document.block(" · ".join(map(markdown, conditions(whole, found))), chips(conditions(whole, found)))
    figures = pictures_of(whole, records, scenarios[0])
    if figures:
        document.figures(figures)
    header, rows = table_of(found)
    document.table(f"By {'person' if found.words.who == 'people' else 'place'}: {found.words.access}", header, rows)


def sentence_of(changes: PersonChanges, found: StudyChanges, scenario: str) -> list[Part]:
    """Returns who loses and who gains at least a tenth, the greater number first, and the mean before and after."""
    lose, gain, total, who = changes.lose(LOSE), changes.gain(LOSE), changes.total, found.words.who
    what = f"{found.unit} within {found.minutes} minutes"
    begin = [Part(f"{display_text(scenario)}: ")] if scenario else []
    if not (changes.after != changes.before).any():
        return [
            *begin,
            Part(f"Nothing changes: each of {people_shown(total)} {who} could reach as many {what} as today."),
        ]
    sides = sorted([(lose, "fewer", LOSS), (gain, "more", GAIN)], key=lambda side: -side[0])
    (first, word, tone), (second, other, second_tone) = sides
    before, after = changes.means()
    mean = Part(f" The mean {'person' if who == 'people' else 'place'} could reach {change_of(before, after)}.")
    if not first:
        return [*begin, Part(f"No one could reach at least a tenth more or fewer {what}."), mean]
    head = [Part(f"{people_shown(first)} of {people_shown(total)} {who}", tone), Part(f" ({percent_of(first, total)})")]
    head.append(Part(f" could reach at least a tenth {word} {what}"))
    if second:
        tail = [Part(", and "), Part(people_shown(second), second_tone), Part(f" at least a tenth {other}.")]
    else:
        tail = [Part(f", no one at least a tenth {other}.")]
    return [*begin, *head, *tail, mean]


def change_of(before: float, after: float) -> str:
    """The change of a mean: `9 % fewer (38,600 → 35,200)`."""
    shown = f"({grouped_short(before)} → {grouped_short(after)})"
    if before <= 0 < after:
        return f"{grouped_short(after)}, and none today"
    if before <= 0 or f"{100 * abs(after - before) / before:.0f}" == "0":
        return f"about as many as today {shown}"
    percent = f"{100 * abs(after - before) / before:.0f}\u202f%"
    return f"{percent} {'fewer' if after < before else 'more'} {shown}"


def conditions(whole: StudyMatrix, found: StudyChanges) -> list[str]:
    """What holds for all figures: day and departures, percentile, what is counted, and by whom it is weighted."""
    days = departures_shown(whole.study)
    share = "Usual journey (half of departures)" if whole.study.share == 50 else f"{whole.study.share} % of departures"
    weights = "Weighted by residents" if found.words.who == "people" else "Each place counts once"
    words = found.words.access
    return [text for text in (days, share, f"{words[0].upper()}{words[1:]}", weights) if text]


def departures_shown(study: Study) -> str:
    """The day and window whose matrix is that of maps and page: `Mon 4 May 2026, 07:30–08:29`."""
    run = study.run
    date, window = run.dates[0] if run.dates else run.date, run.windows[0] if run.windows else None
    first, last = (window.first, window.last) if window else (run.first, run.last)
    return f"{datetime.date.fromisoformat(date):%a %-d %b %Y}, {first}–{last}"


def chips(texts: list[str]) -> str:
    return '<p class="chips">' + "".join(f"<span>{html.escape(text)}</span>" for text in texts) + "</p>"


def as_html(parts: list[Part]) -> str:
    return "".join(
        f'<b class="{part.tone}">{html.escape(part.text)}</b>' if part.tone else html.escape(part.text)
        for part in parts
    )


def pictures_of(whole: StudyMatrix, records: Records, scenario: str) -> list[tuple[str, str]]:
    """The map of what the first scenario changes, and the chart of its people, with a text for each."""
    found = []
    if "maps" in records:
        for drawn in maps_of(whole):
            if drawn.is_difference and drawn.scenario == scenario and drawn.origin is None and drawn.nearest is None:
                found.append((drawn.file, f"Change of access in {display_text(scenario)}, map"))
                break
    if "changes" in records:
        found.append((ORDER, "Change of access of each person, greatest loss first"))
    return found


def table_of(found: StudyChanges) -> tuple[list[str], list[list[str]]]:
    """A row for each group of people and scenario: means, their change, and who loses and gains at least a tenth."""
    header = ["Group", "Scenario", found.words.who.capitalize(), "Mean today", "Mean then", "Change"]
    header += ["Lose a tenth or more", "Gain a tenth or more", "Lose a quarter or more"]
    rows = []
    for group in found.groups:
        for scenario in found.after:
            changes = found.of(scenario, group)
            before, after = changes.means()
            change = signed_percent(100 * (after - before) / before) if before > 0 else ""
            sides = [changes.lose(LOSE), changes.gain(LOSE), changes.lose(25)]
            sums = [people_shown(changes.total), grouped_short(before), grouped_short(after), change]
            rows.append([display_text(group), display_text(scenario), *sums, *map(people_shown, sides)])
    return header, rows
