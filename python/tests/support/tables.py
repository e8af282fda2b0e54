"""Tables as text, read, and what is said where one is refused."""
import pytest

import pitplan as pp
from mines import SIZE, costs


def read(folder, frame, name="t.csv", text=None, **keys):
    path = folder / name
    path.write_bytes(text if text is not None else frame.to_csv(index=False).encode())
    return pp.read_table(path, **{**dict(size=SIZE), **keys})


def refusal(folder, frame, **keys):
    with pytest.raises(pp.PlanError) as error:
        model = read(folder, frame, **keys)
        costs().priced(model)
    return str(error.value)
