"""Who may send requests: a page of this server in a browser of this machine that knows the token of the address."""

import hmac
import os
import secrets
from dataclasses import dataclass, field
from pathlib import Path
from typing import Mapping

HOST = "127.0.0.1"
BYTES = 32  # of a token
REDIRECT = """\
<!DOCTYPE html>
<html lang="en"><head><meta charset="utf-8"><title>ttm-tools explore</title>
<meta name="referrer" content="no-referrer"><meta http-equiv="refresh" content="0; url={address}"></head>
<body><p><a href="{address}">ttm-tools explore</a></p></body></html>
"""
HEADERS = {
    "Cache-Control": "no-store",
    "Cross-Origin-Opener-Policy": "same-origin",
    "Cross-Origin-Resource-Policy": "same-origin",
    "Referrer-Policy": "no-referrer",
    "X-Content-Type-Options": "nosniff",
    "X-Frame-Options": "DENY",
}


@dataclass(frozen=True)
class Guard:
    """What a request has to bring."""

    port: int
    token: str = field(default_factory=lambda: secrets.token_urlsafe(BYTES), repr=False)

    @property
    def origin(self) -> str:
        return f"http://{HOST}:{self.port}"

    @property
    def address(self) -> str:
        """What the browser opens."""
        return f"{self.origin}/{self.token}/"

    def refusal(self, path: str, method: str, headers: Mapping[str, str]) -> int | None:
        """The status that refuses a request; none where it may pass. Another name of this machine is refused, as a page
        of a stranger would come by one (DNS rebinding), and so is a request that another page sends.
        """
        if headers.get("Host") != f"{HOST}:{self.port}":
            return 421
        token = path.removeprefix("/").split("/", 1)[0]
        if not hmac.compare_digest(token.encode("utf-8", "surrogateescape"), self.token.encode()):
            return 404
        origin = headers.get("Origin")
        if origin is not None and origin != self.origin or origin is None and method not in ("GET", "HEAD"):
            return 403
        is_own = headers.get("Sec-Fetch-Site", "none") in ("none", "same-origin")
        return None if is_own or method == "GET" and path == f"/{self.token}/" and is_visit(headers) else 403

    def write_redirect(self, path: Path) -> str:
        """Writes a file that leads a browser to the page, and returns its address. The browser is called with the name
        of this file, which the user alone can read; every user of the machine can read the words of a command.
        """
        with open(os.open(path, os.O_WRONLY | os.O_CREAT | os.O_EXCL, 0o600), "w", encoding="utf-8") as file:
            file.write(REDIRECT.format(address=self.address))
        return path.absolute().as_uri()


def is_visit(headers: Mapping[str, str]) -> bool:
    """Whether a browser opens an address in a tab, by a link or a redirect: no frame, script or picture of a page."""
    return (headers.get("Sec-Fetch-Mode"), headers.get("Sec-Fetch-Dest")) == ("navigate", "document")
