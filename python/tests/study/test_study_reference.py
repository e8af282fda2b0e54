"""TODO"""
import tomllib

import pytest

import two_ways
from pitplan.study import study_reference


def test_the_schema_takes_either_form_and_not_both():
    jsonschema = pytest.importorskip("jsonschema")
    schema, text = study_reference.schema(), two_ways.TEXT
    jsonschema.validate(tomllib.loads(text), schema)
    for was, now in (
        ("mining = 2.0", "mining = 2.0\nprocessing = 9"),
        (text[text.index("[[eco") : text.index("[slopes]")], ""),
        ('name = "leach"\n', ""),
        ("payable = { copper = 0.99 }", "payable = { copper = 99 }"),
        ("rate = 120e3", "rate = 0"),
        ("rate = 120e3", "raet = 120e3"),
    ):
        assert was in text
        with pytest.raises(jsonschema.ValidationError):
            jsonschema.validate(tomllib.loads(text.replace(was, now)), schema)
