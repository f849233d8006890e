"""The logger of the package, `ttm_tools`. Without a handler of the caller's it is silent."""

import logging

logger = logging.getLogger("ttm_tools")
logger.addHandler(logging.NullHandler())
