"""The answers of the server: the page, travel times, journeys, changes of the network, and a study that is saved."""

import functools
import io
from typing import Any, Callable

from flask import Flask, Response, request

from ..core.console import one_line, say
from ..core.errors import ArgumentError, InputError, MissingDependencyError
from ..core.question import MAX_RIDES, PERCENTILES
from .changes import actions_of, walk_of
from .guard import Guard, HEADERS
from .journeys import JourneyQuestion
from .latest_only import Superseded
from .page_live import write_document
from .question import question_of, setting_in, tab_of, version_of, whole, window_of
from .saving import save
from .session import ExploreSession

MOST_BYTES = 1 << 20  # of what the page sends
NUMBERS, REFUSED, OF_ITS_OWN = "application/octet-stream", 422, 500
LONGEST = 300  # letters of an error of its own
MOST_SCENARIOS = 65534
Answer = Response | tuple[dict[str, Any], int]


def application(session: ExploreSession, guard: Guard) -> Flask:
    server = Flask(__name__, static_folder=None, template_folder=None)
    server.before_request(lambda: refusal(guard))
    server.after_request(with_headers)
    answers = {"": page, "times": times, "journey": journey, "routes": routes}
    sent = {"changes": changes, "cost": cost, "study": study}
    for name, answer in {**answers, **sent}.items():
        methods = ["POST" if name in sent else "GET"]
        view = functools.partial(answered, answer, session)
        server.add_url_rule(f"/<token>/{name}", name or "page", view, methods=methods, provide_automatic_options=False)
    return server


def refusal(guard: Guard) -> Response | None:
    """Refuses a request that isn't of the page, before anything else is checked."""
    status = guard.refusal(request.path, request.method, request.headers)
    if status is None and request.method == "POST":
        length = request.content_length  # not known of a body in pieces, which is no page's
        status = 411 if length is None else 413 if length > MOST_BYTES else None
    return None if status is None else Response("", status, mimetype="text/plain")


def with_headers(response: Response) -> Response:
    response.headers.update(HEADERS)
    return response


def answered(answer: Callable[[ExploreSession], Answer], session: ExploreSession, token: str) -> Answer:
    """An answer, or a line that says why there is none; the guard has checked the token."""
    try:
        return answer(session)
    except Superseded:
        return Response(status=204)
    except (InputError, MissingDependencyError, ArgumentError) as fault:
        return {"fault": one_line(fault)}, REFUSED
    except MemoryError:
        return {"fault": "out of memory"}, REFUSED
    except RecursionError:
        return {"fault": "what the page sends is nested too deeply"}, REFUSED
    except Exception as fault:  # an error of its own ends no other answer
        message = one_line(f"internal error, {type(fault).__name__}: {fault}")[:LONGEST]
        say(f"ttm-tools explore: {message}")
        return {"fault": message}, OF_ITS_OWN


def page(session: ExploreSession) -> Answer:
    out = io.BytesIO()
    write_document(out, session)
    return Response(out.getvalue(), mimetype="text/html")


def times(session: ExploreSession) -> Answer:
    """Seconds as int32, for each scenario, share and column; -1 where it isn't reached."""
    question = question_of(request.args, len(session.ground.columns))
    response = Response(session.times(question).tobytes(), mimetype=NUMBERS)
    response.headers["X-Version"] = str(question.version)
    return response


def journey(session: ExploreSession) -> Answer:
    args, columns = request.args, session.ground.columns
    origin, end = (columns[whole(args, name, 0, len(columns) - 1)] for name in ("origin", "end"))
    scenario, version, tab = whole(args, "scenario", 0, MOST_SCENARIOS), version_of(args), tab_of(args)
    window, trips, share = window_of(args), setting_in(args, MAX_RIDES), setting_in(args, PERCENTILES)
    return session.journey(JourneyQuestion((origin, end), scenario, window, trips, share), version, tab), 200


def routes(session: ExploreSession) -> Answer:
    return Response(session.routes, mimetype="application/json")


def changes(session: ExploreSession) -> Answer:
    """Begins the network of a tab's changes, or of another longest walk."""
    body = body_sent()
    return session.change(tab_of(texts_of(body, "tab")), actions_of(body), walk_of(body)), 200


def cost(session: ExploreSession) -> Answer:
    """Departures and vehicle hours of the last of a tab's changes, which is not applied; why there are none if a plan
    refuses it, such as a half-typed time.
    """
    actions = actions_of(body_sent())
    if not actions:
        raise ArgumentError("actions is empty, so there is no cost")
    try:
        return session.cost(actions), 200
    except (InputError, ArgumentError) as fault:
        return {"refused": one_line(fault)}, 200


def study(session: ExploreSession) -> Answer:
    """Saves a study of a tab's network."""
    body = body_sent()
    sent = texts_of(body, "version", "tab")
    with session.network(version_of(sent), tab_of(sent)) as live:
        walker = functools.partial(session.walks_from, live.plan)
        return save(session.options, live.plan, session.ground.columns, body, walker), 200


def body_sent() -> Any:
    """The JSON that the page sends; None for anything else."""
    return request.get_json(silent=True)


def texts_of(body: Any, *names: str) -> dict[str, str]:
    """Some values of what the page sends, as texts."""
    return {name: str(body[name]) for name in names if name in body} if isinstance(body, dict) else {}
