"""The names of arrays stand for the numbers that they say."""
from typing import get_args

import numpy as np
import pytest

from pitplan.base import arrays

WIDTHS = {
    "Bools": np.bool_,
    "Ints": np.int64,
    "Indices": np.int32,
    "Shorts": np.int16,
    "Levels": np.uint16,
    "Floats": np.float64,
    "Singles": np.float32,
    "Bytes": np.uint8,
    "Texts": np.object_,
}


@pytest.mark.parametrize("name", WIDTHS)
def test_each_name_has_its_numbers(name):
    (dtype,) = get_args(get_args(getattr(arrays, name))[1])
    assert dtype is WIDTHS[name]
