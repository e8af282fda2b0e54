"""The manual page and the completions of pitplan are what its help texts give, and shells complete
what is typed."""
import re
import shutil
import sys
from pathlib import Path

import pytest

TOP = Path(__file__).resolve().parents[3]
sys.path[:0] = [str(TOP / "tools"), str(TOP / "tests")]

from scripts import completing  # noqa: E402
import completions  # noqa: E402
import help_texts  # noqa: E402
import man_page  # noqa: E402


@pytest.fixture(scope="module")
def texts():
    return help_texts.of_pitplan()


def test_they_are_up_to_date(texts, capsys):
    assert man_page.is_up_to_date(texts), capsys.readouterr().out


def test_an_old_page_is_told(texts, tmp_path, monkeypatch, capsys):
    monkeypatch.setattr(man_page.tree, "TOP", tmp_path)
    for name, text in man_page.files(texts).items():
        (tmp_path / name).parent.mkdir(exist_ok=True)
        (tmp_path / name).write_text(text)
    assert man_page.is_up_to_date(texts)
    (tmp_path / "docs" / "pitplan.1").write_text("older\n")
    assert not man_page.is_up_to_date(texts)
    assert "docs/pitplan.1 isn't what the help texts of pitplan say" in capsys.readouterr().out


def test_the_page_has_every_command_and_every_status(texts):
    page = (TOP / "docs" / "pitplan.1").read_text()
    from pitplan.cli.main import ENDED, MACHINE, NO, ORDER, WRONG

    assert re.findall(r"^\.SS pitplan (\w+)$", page, re.M) == list(ORDER)
    assert re.findall(r"^\.TP\n\.B (\d+)$", page, re.M) == [
        str(number) for number in (0, NO, 2, WRONG, MACHINE, ENDED)
    ]


def test_an_option_without_a_default_says_none_of_one():
    from pitplan.cli import main as cli
    from typer.testing import CliRunner

    cli.load_commands()
    for words in ([], *([name] for name in cli.ORDER)):
        said = CliRunner().invoke(cli.app, [*words, "--help"]).output
        assert "--help" in said, said
        assert "default: None" not in said, said


def test_words_that_an_option_may_have_are_in_its_help_text():
    pages = {
        name: (TOP / "docs" / f"{name}.1").read_text().replace("\\-", "-").split(".TP\n")
        for name in ("pit", "pitplan")
    }
    for (command, option), words in completions.VALUES.items():
        said = [row for row in pages[command] if row.startswith(f".B {option} ")]
        assert said, (option, said)
        assert all(word in row for row in said for word in words.split()), (option, said)


@pytest.mark.parametrize("shell", completing.SHELLS)
def test_shells_complete(shell):
    if shell != "bash" and not shutil.which(shell):
        pytest.skip(f"{shell} isn't here")
    assert not completing.wrong_in(shell, lambda name: completing.of_repository(shell, name))
