"""The server: on this machine alone, until a signal ends it."""

import errno
import socket
import webbrowser
from typing import Any

from flask import Flask
from werkzeug.serving import BaseWSGIServer, WSGIRequestHandler, make_server

from ..core.errors import InputError
from .guard import HOST


class Quiet(WSGIRequestHandler):
    """Keeps a connection for further requests, and says nothing of them: their addresses have the token."""

    protocol_version = "HTTP/1.1"

    def log(self, kind: str, message: str, *values: Any) -> None:
        """Says nothing."""

    def version_string(self) -> str:
        return "ttm-tools"


def bound(port: int) -> socket.socket:
    """A socket of this machine at a port, or at a free one where the port is 0."""
    listening = socket.socket(socket.AF_INET, socket.SOCK_STREAM)
    try:
        listening.setsockopt(socket.SOL_SOCKET, socket.SO_REUSEADDR, 1)
        listening.bind((HOST, port))
        listening.listen(128)
    except OSError as fault:
        listening.close()
        message = "is in use" if fault.errno == errno.EADDRINUSE else fault.strerror or str(fault)
        raise InputError(f"port {port}", f"{message}: name another with --port, or 0 for a free one") from None
    return listening


def server_of(app: Flask, own: socket.socket) -> BaseWSGIServer:
    """A server at a socket, which answers requests once `serve_forever` is called."""
    port = int(own.getsockname()[1])
    return make_server(HOST, port, app, threaded=True, request_handler=Quiet, fd=own.fileno())


def serve(app: Flask, own: socket.socket, opened: str | None) -> None:
    """Answers requests until a signal comes; opens an address in a browser if there is one (see `write_redirect`)."""
    with own:
        server = server_of(app, own)
        try:
            if opened is not None:
                webbrowser.open(opened)
            server.serve_forever(poll_interval=0.1)
        finally:
            server.server_close()
