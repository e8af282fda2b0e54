"""The command `desk`."""
import inspect

import pytest

pytest.importorskip("starlette")

from pitplan.base.errors import PlanError
from pitplan.cli.desk import desk as command
from pitplan.desk import serve


def test_it_listens_to_this_machine_alone_unless_told():
    assert inspect.signature(serve.serve).parameters["host"].default == "127.0.0.1"
    assert inspect.signature(command).parameters["host"].default.default == "127.0.0.1"
    names = serve.names_of(8750, ["https://desk.mine.example"])
    assert names["localhost:8750"] == "http://localhost:8750"
    assert names["desk.mine.example"] == "https://desk.mine.example"
    for wrong in ("desk.mine.example", "ftp://x", "https://x/path", "https://"):
        with pytest.raises(PlanError, match="is no address"):
            serve.names_of(8750, [wrong])
