"""Which commands take turns over a study."""
from pitplan.cli.console import app
from pitplan.cli.main import load_commands
from pitplan.cli.taking_turns import WRITERS

# what writes into no study that another command may have: `task` locks each pit by itself
ALONE = {"init", "check", "status", "task", "schema", "desk", "doctor"}


def test_of_each_command_it_is_said_whether_it_writes_into_a_study():
    load_commands()
    named = [command.callback.__name__ for command in app.registered_commands]
    assert sorted(named) == sorted([*WRITERS, *ALONE])
