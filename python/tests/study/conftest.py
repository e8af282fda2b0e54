"""The shells of a mine of two metals, for the tests of their tables."""
import pytest

from mines import TWO_METALS, costs, study_of, table


@pytest.fixture(scope="session")
def two_metals(tmp_path_factory):
    folder = tmp_path_factory.mktemp("m")
    study = study_of(folder, table(9, 8, 5, 5), economics=costs(**TWO_METALS))
    return study.shells([500, 750, 1000, 1250]), folder
