"""The command `schema` prints what an editor reads: a JSON Schema that takes a study.toml that is right,
and no other."""
import json
import tomllib

import mines
from pitplan.cli.schema import schema
from pitplan.study import study_reference
from pitplan.table.study_keys import SECTIONS, keys_of


def test_it_is_json_with_every_section_and_key(capsys):
    schema()
    printed = json.loads(capsys.readouterr().out)
    assert printed == study_reference.schema()
    assert set(printed["properties"]) == set(SECTIONS)
    for section in SECTIONS:
        known = printed["properties"][section]["properties"]
        assert set(known) >= set(keys_of(section)), section


def test_a_study_that_is_right_has_no_other_keys(capsys):
    schema()
    printed = json.loads(capsys.readouterr().out)
    for section, values in tomllib.loads(mines.STUDY_TOML).items():
        assert set(values) <= set(printed["properties"][section]["properties"])
        assert printed["properties"][section]["additionalProperties"] is False
