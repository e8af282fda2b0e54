"""The arrays that are handed about, by the type of their numbers."""
from __future__ import annotations

from typing import Any

import numpy as np
import numpy.typing as npt

Array = npt.NDArray[Any]
Bools = npt.NDArray[np.bool_]
Ints = npt.NDArray[np.int64]
Indices = npt.NDArray[np.int32]  # of blocks or rows, -1 where there is none
Shorts = npt.NDArray[np.int16]
Levels = npt.NDArray[np.uint16]  # of a bench, or how many are dug
Floats = npt.NDArray[np.float64]
Singles = npt.NDArray[np.float32]
Bytes = npt.NDArray[np.uint8]
Texts = npt.NDArray[np.object_]
Wholes = npt.NDArray[np.integer[Any]]  # of any size
