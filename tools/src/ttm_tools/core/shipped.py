"""Files besides the modules: Leaflet, which every copy but Debian's package carries, and the documentation and sample
of a wheel.
"""

from pathlib import Path

DATA = Path(__file__).resolve().parents[1] / "data"
IN_DEBIAN = Path("/usr/share/javascript/leaflet")  # of libjs-leaflet
VENDORED = Path(__file__).resolve().parents[1] / "web" / "assets" / "leaflet"
LEAFLET = str(VENDORED if (VENDORED / "leaflet.min.js").is_file() else IN_DEBIAN)
