"""Names for the types of numpy arrays."""

from typing import Any

import numpy as np
import numpy.typing as npt

Whole = npt.NDArray[np.int64]
Narrow = npt.NDArray[np.int32]  # for millions of integers
Floats = npt.NDArray[np.float64]
Mask = npt.NDArray[np.bool_]
Places = npt.NDArray[np.intp]  # indices
Seconds = npt.NDArray[np.float32]  # travel times, NaN if not reached
Sums = npt.NDArray[Any]  # int64; float64 if the counts have decimals
