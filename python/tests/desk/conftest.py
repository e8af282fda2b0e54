"""A folder that the desk is started over, and a browser."""
import pytest

from hill import HILL, STUDY


@pytest.fixture
def root(tmp_path):
    """A folder with a table and a study, and a secret beside it."""
    root = tmp_path / "root"
    (root / "hill" / "out").mkdir(parents=True)
    (root / "hill.csv").write_bytes(HILL.read_bytes())
    (root / "hill" / "study.toml").write_text(STUDY)
    (root / "hill" / "out" / "pits.html").write_text("<script>1</script>")
    (tmp_path / "secret.csv").write_text("x,y,z\n1,2,3\n")
    return root


@pytest.fixture(scope="module")
def browser():
    """A browser for the tests of a module; none of its pages may complain."""
    from desks import Chromium  # needs Selenium, which others don't

    found = Chromium()
    yield found
    assert not found.complaint()
    assert not found.complaints()
    found.close()
