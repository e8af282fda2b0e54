"""The command `slopes`."""
import numpy as np
import pandas as pd

from mines import STUDY_TOML, written_study
from served import pitplan


def test_the_command_shows_and_draws(tmp_path):
    text = STUDY_TOML.replace(
        "angles = 45", 'angles = 45\nby = "SECTOR"\nregions = { EAST = [[0, 38], [180, 46]] }'
    )
    study = written_study(tmp_path / "s", text=text)
    ran = pitplan("slopes", study)  # before a build: it needs the size alone
    assert ran.returncode == 0, ran.stderr
    assert "EAST:" in ran.stdout, ran.stderr
    assert "a deep wall is" in ran.stdout, ran.stderr
    assert "42.0" in ran.stdout, ran.stderr
    rows = pd.read_csv(study / "out/slopes.csv")
    assert set(rows.region) == {"default", "EAST"}
    assert len(rows) == 48
    from matplotlib import image

    picture = image.imread(study / "out/slopes.png")
    assert len(np.unique(picture.reshape(-1, picture.shape[-1]), axis=0)) > 20


def test_an_angle_that_is_none_is_refused_in_words(tmp_path):
    wrong = written_study(tmp_path / "u", text=STUDY_TOML.replace("angles = 45", "angles = 450"))
    ran = pitplan("slopes", wrong)
    assert ran.returncode == 3
    assert "from 5 to 89 degrees" in ran.stderr
    assert "Traceback" not in ran.stderr
