"""The command `export`, from a study to files."""
import ezdxf

from mines import written_study
from served import pitplan


def test_the_command(tmp_path):
    study = written_study(tmp_path / "s")
    assert pitplan("export", study).returncode == 3
    assert pitplan("build", study).returncode == 0
    early = pitplan("export", study)
    assert early.returncode == 3
    assert "haven't been run" in early.stderr
    assert "pitplan shells " in early.stderr
    assert pitplan("shells", study).returncode == 0
    ran = pitplan("export", study, "--to", "dxf,vtu,csv,gpkg", "--columns", "CU,ROCK")
    assert ran.returncode == 0, ran.stderr
    assert all(
        (study / "out" / f"shells.{kind}").stat().st_size > 500
        for kind in ("dxf", "vtu", "csv", "gpkg")
    )
    assert {line.dxf.layer for line in ezdxf.readfile(study / "out/shells.dxf").modelspace()} == {
        f"SHELL_{k:04d}_{edge}" for k in (600, 1000, 1200) for edge in ("TOE", "CREST")
    }
    one = pitplan("export", study, "--to", "dxf", "--factors", "1.0")
    assert one.returncode == 0
    assert {line.dxf.layer for line in ezdxf.readfile(study / "out/shells.dxf").modelspace()} == {
        "SHELL_1000_TOE",
        "SHELL_1000_CREST",
    }
    for words, said in (
        (("--to", "dxg"), "is 'dxf' meant"),
        (("--columns", "CUU"), "is 'CU' meant"),
        (("--factors", "0.7"), "the nearest that have are 0.6, 1"),
        (("--factors", "1,a"), "'a' is no factor"),
        (("--to", "gpkg", "--crs", "here"), "no coordinate system"),
    ):
        wrong = pitplan("export", study, *words)
        assert wrong.returncode == 3, wrong.stderr
        assert said in wrong.stderr, wrong.stderr
        assert "Traceback" not in wrong.stderr, wrong.stderr
