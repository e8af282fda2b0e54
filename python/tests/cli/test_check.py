"""The command `check`."""
import signal
import time

from mines import written_study
from processes import TOP, started
from slips import STUDY


def until(log, words):
    """Whether a file comes to have words."""
    for _ in range(12000):
        if words in log.read_text():
            return True
        time.sleep(0.05)
    return False


def test_check_watches_what_is_saved(tmp_path):
    folder, log = (
        written_study(tmp_path / "s", text=STUDY.replace("dilution = 0.05", "dilution = 5")),
        tmp_path / "log",
    )
    with open(log, "w") as file:
        run = started(
            [TOP / "bin" / "pitplan", "check", folder, "--watch"], stdout=file, stderr=file
        )
        assert until(log, "1 error; ctrl-C ends")
        assert "dilution is 5" in log.read_text()
        (folder / "study.toml").write_text(STUDY)
        assert until(log, "nothing is wrong; ctrl-C ends")
        assert log.read_text().count("ctrl-C ends") == 2
        run.send_signal(signal.SIGINT)
        assert run.wait(600) == 130
        assert log.read_text().endswith("stopped\n")
