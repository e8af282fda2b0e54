"""A ramp in a wall: overall angles against a wall that is walked bench by bench, and studies whose
angles were typed by hand."""
import math
import os
import re
import subprocess
import sys

import pytest

import pitplan as pp
from pitplan.study.strange_inputs import of_ramps
from bundles import bundled
from mines import STUDY_TOML, predecessors, study_of, table, written_study
from pitplan.model.grid import Grid
from pitplan.plans.vary import Change, changed
from pitplan.slopes.ramps import Ramp, ramp_of
from pitplan.study.study_file import read_study_file
from served import pitplan

RAMP = {"width": 25.0, "grade": 0.1, "height": 300.0, "turns": 2.0}
GRID = Grid((0.0, 0.0, 0.0), (20.0, 20.0, 15.0))


def walked(face, berm, bench, benches, ramp_at, width):
    """The overall angle of a wall that is walked from its toe to its crest: faces and berms, and a
    ramp in place after some benches."""
    along = up = 0.0
    for k in range(benches):
        along, up = along + bench / math.tan(math.radians(face)) + berm, up + bench
        along += width if k in ramp_at else 0.0
    return math.degrees(math.atan2(up, along))


@pytest.mark.parametrize("ramp_at", [(), (9,), (4, 14), (2, 9, 16)])
def test_a_wall_with_ramps_is_as_steep_as_one_that_is_walked(ramp_at):
    between = walked(70, 8, 15, 20, (), 0)
    ramp = Ramp(25, 0.1, 300, turns=len(ramp_at))
    assert ramp.overall(between) == pytest.approx(walked(70, 8, 15, 20, ramp_at, 25))


def test_overall_angles_by_hand():
    """100 m up over 100 m and one pass of 25 m: 4 in 5. A turn of 1,500 m at 1 in 10 rises by 150
    m, so 300 m have two."""
    assert Ramp(25, 0.1, 100, turns=1).overall(45) == pytest.approx(math.degrees(math.atan(4 / 5)))
    assert Ramp(25, 0.1, 300, around=1500).passes == 2
    assert Ramp(25, 0.08, 300, around=1500).passes == 2.5
    said = Ramp(25, 0.1, 300, around=1500).spelled([[0, 45], [90, 45], [180, 50]])
    assert said == (
        "45, 50 degrees between ramps make 40.6, 44.8 overall: over 300 m a wall is 300.0, 251.7 m wide in plan, and 2 passes of a ramp "
        "of 25 m add 50.0, as a turn of 1,500 m rises by 150; at a grade of 0.1 the ramp is 3,000 m long"
    )


def test_a_study_with_a_ramp_is_that_of_the_overall_angles(tmp_path):
    """The same predecessors as with angles that were worked out by hand, in the regions that have a
    ramp, and the others as they were."""
    frame = table(8, 7, 6, 2)
    by_hand = {
        45: math.degrees(math.atan(300 / (300 + 50))),
        50: math.degrees(math.atan(300 / (300 / math.tan(math.radians(50)) + 50))),
    }
    east = [[0, 45], [180, 50]]
    for name, ramp, angles, of_east in (
        ("all", RAMP, by_hand[45], [[0, by_hand[45]], [180, by_hand[50]]]),
        ("one", {"EAST": RAMP}, 45, [[0, by_hand[45]], [180, by_hand[50]]]),
        ("others", {"default": RAMP}, by_hand[45], east),
    ):
        found = []
        for kind, slopes in (
            ("ramp", pp.Slopes(45, by="SECTOR", regions={"EAST": east}, ramp=ramp)),
            ("hand", pp.Slopes(angles, by="SECTOR", regions={"EAST": of_east})),
        ):
            (tmp_path / f"{name}-{kind}").mkdir()
            study = study_of(tmp_path / f"{name}-{kind}", frame, slopes)
            found.append(predecessors(study.where))
        assert found[0] == found[1], name
    asked = pp.Slopes(45, ramp=RAMP).built(GRID).asked
    assert asked.to_numpy() == pytest.approx(by_hand[45])


def test_wrong_ramps_are_told():
    for ramp, said in (
        ({**RAMP, "grade": 10}, r"a grade of 10 rises 10 m in each metre\n.*grade = 0.1"),
        (
            {**RAMP, "around": 900.0},
            r"ramp has turns and around, and each says .*\n.*try: ramp = \{ width = 25, grade = 0.1, height = 300, turns = 2 \}, or around without",
        ),
        (
            {"NORTH": {**RAMP, "around": 900.0}},
            r"ramp, NORTH has turns and around.*\n.*try: NORTH = \{ width = 25",
        ),
        ({"width": 25.5, "tall": True}, r"ramp has no key 'tall'"),
        ({"width": 25}, "ramp has no grade: how far it rises"),
        ({}, "has to be a table as"),
        ({"NORD": RAMP}, "there is no region 'NORD'; is 'NORTH' meant"),
        ({**RAMP, "turns": 4000.0}, "a slope is from"),
    ):
        with pytest.raises(pp.PlanError, match=said):
            pp.Slopes(45, by="SECTOR", regions={"NORTH": 40}, ramp=ramp)
    assert ramp_of({"NORTH": RAMP}, "default") is None
    assert ramp_of(None, "NORTH") is None


@pytest.mark.parametrize("region", [(), ("NORTH",)])
@pytest.mark.parametrize(
    "change, key, said, tried",
    [
        ({"height": None}, (), "{ramp} has no height: that of the wall", "height = 300"),
        ({"turns": None}, (), "{ramp} has no turns: how often", "turns = 2, or around = 1500"),
        (
            {"turns": 0},
            ("turns",),
            "{ramp}: turns is 0, and has to be a number above 0",
            "turns = 2",
        ),
        (
            {"width": -5},
            ("width",),
            "{ramp}: width is -5, and has to be a number above 0",
            "width = 25",
        ),
        (
            {"grade": "0.1"},
            ("grade",),
            "{ramp}: grade is '0.1', and has to be a number",
            "grade = 0.10",
        ),
        ({"heigth": 300}, ("heigth",), "{ramp} has no key 'heigth'; is 'height' meant?", "height"),
        ({"turns": None, "around": 0}, ("around",), "{ramp}: around is 0,", "around = 1500"),
    ],
)
def test_the_key_of_a_ramp_that_is_wrong_is_named(region, change, key, said, tried):
    """In a ramp of all walls, and in that of a region beside one that is right."""
    wrong = {name: value for name, value in {**RAMP, **change}.items() if value is not None}
    ramp = {"default": RAMP, region[0]: wrong} if region else wrong
    with pytest.raises(pp.PlanError) as caught:
        pp.Slopes(45, by="SECTOR", regions={"NORTH": 40}, ramp=ramp)
    (error,) = caught.value.each()
    assert error.key == ("slopes", "ramp", *region, *key)
    assert said.format(ramp=", ".join(("[slopes] ramp", *region))) in error.what
    assert tried in str(error.try_this)


BY_RAMP = STUDY_TOML.replace(
    "angles = 45", "angles = 45\nramp = { width = 25, grade = 0.10, height = 300, turns = 2 }"
)


def test_commands_say_which_angle_they_use_and_why(tmp_path):
    folder = written_study(tmp_path / "s", text=BY_RAMP)
    said = "default: 45 degrees between ramps make 40.6 overall: over 300 m a wall is 300.0 m wide in plan, and 2 passes of a ramp of 25 m add 50.0"
    for command in ("slopes", "build"):
        ran = pitplan(command, folder)
        assert ran.returncode == 0, ran
        assert said in ran.stdout, ran
    run = [pitplan(*words, folder) for words in (["shells"], ["report", "--pdf"])]
    assert [each.returncode for each in run] == [0, 0], run
    text = subprocess.check_output(
        ["pdftotext", "-layout", folder / "out/report.pdf", "-"], text=True
    )
    assert said in " ".join(text.split())
    assert re.search(r"^ +0 +40\.6 ", pitplan("slopes", folder).stdout, re.M)
    assert "north 40.6, east 40.6" in pitplan("check", folder).stdout


def test_a_change_of_the_slope_keeps_the_ramp(tmp_path):
    plan = read_study_file(written_study(tmp_path / "s", text=BY_RAMP))
    model = plan.read_model()
    _, slopes = changed(plan.economics, plan.slopes, Change("slope", 3.0), model)
    assert slopes.ramp == plan.slopes.ramp
    asked = slopes.built(model.grid).asked.to_numpy()
    assert asked == pytest.approx(
        math.degrees(math.atan(300 / (300 / math.tan(math.radians(48)) + 50)))
    )


def test_a_bundle_is_judged_by_the_overall_angle(tmp_path):
    """Without the ramp's line the walls would seem four degrees too flat."""
    folder = bundled(tmp_path, BY_RAMP)

    def flatter():
        words = [sys.executable, "-I", str(folder / "recheck.py"), os.environ["PIT"]]
        said = subprocess.run(words, capture_output=True, text=True).stdout
        return float(re.search(r"and ([\d.]+) flatter than study.toml asks", said)[1])

    assert flatter() < 1.2
    stated = folder / "study.toml"
    stated.write_text(re.sub("ramp = .*", "", stated.read_text()))
    assert flatter() > 4


@pytest.mark.parametrize(
    "ramp, words",
    [
        # over 110 m a ramp of one in ten is 1,100 m long: nine times round makes turns of 122 m,
        # and a circle of 25 m radius has 157 m, which is 7 turns
        (
            {"height": 110, "turns": 9},
            r"passes 9 times over 110 m, .* is 122.2 m long; .* 157 m, which makes at most 7 passes",
        ),
        # over 600 m at 70 degrees a wall is 218 m wide; ten passes of 25 m are 250
        (
            {"height": 600, "turns": 10},
            r"takes 250 m of a wall that is 218 m wide without it, and makes 52.0 degrees of 70",
        ),
        ({"height": 300, "turns": 2}, None),
        ({"height": 110, "turns": 1}, None),
        ({"height": 300, "around": 1500}, None),
        ({"height": 300, "around": 100}, "passes 30 times"),
    ],
)
def test_more_passes_than_a_wall_has_room_for_are_told(ramp, words):
    ramp = {"width": 25, "grade": 0.10, **ramp}
    for slopes in (
        pp.Slopes(70, ramp=ramp),
        pp.Slopes(70, by="SECTOR", regions={"NORTH": 70}, ramp={"NORTH": ramp}),
    ):
        found = list(map(str, of_ramps(slopes, "m")))
        assert len(found) == (words is not None)
        assert words is None or re.search(words, found[0]), found
        assert words is None or ("NORTH" in found[0]) == bool(slopes.regions)
    assert not list(of_ramps(pp.Slopes(70), "m"))
