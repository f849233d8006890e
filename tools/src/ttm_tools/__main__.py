"""`python3 -m ttm_tools COMMAND ..` is `ttm-tools COMMAND ..`, and imports nothing from the working directory."""

import os
import sys

if not sys.flags.safe_path and os.path.abspath(sys.path[0]) == os.getcwd():
    del sys.path[0]  # Python puts the working directory first: a numpy.py among the data would run

from ttm_tools.cli import main  # noqa: E402

if __name__ == "__main__":
    sys.exit(main())
