"""What is published of pitplan: a wheel, a Debian package of it with the program, and one of its desk, whose Depends are python/packages'
own."""
import io
import os
import shutil
import subprocess
import zipfile
from pathlib import Path

import packages
import tree
from help_texts import PYTHON
from packages import File

INTO = "usr/lib/python3/dist-packages/"
# Debian compiles what Python packages have when they are installed, and takes that away when they are removed.
POSTINST = '#!/bin/sh\nset -e\nif [ "$1" = configure ]; then\n    py3compile -p %s\nfi\n'
PRERM = "#!/bin/sh\nset -e\npy3clean -p %s\n"
DESK = INTO + "pitplan/desk/"  # what the package of the desk has
OF_DESK, OF_TESTS = "# pitplan desk", "# its tests"  # what comes below them in python/packages
DESCRIPTION = """from a table of blocks to proved pits, tables, pictures and a page
 pitplan takes a planner's table of blocks, prices, costs and slope angles, and
 gives back shells, pushbacks, CAD files, risk and one HTML page. Each best pit
 that it shows is one that pit states. The program pit is in this package: it
 finds ultimate pits with certificates, and is proved function by function.
"""


DESK_DESCRIPTION = """the commands and the studies of pitplan as a page in the browser
 pitplan desk serves one page over a folder of tables and studies: tables are
 dropped there, prices and slopes typed, pits built, watched and looked at. It
 listens to its own machine alone, and runs the commands that pitplan has.
"""


def needed():
    """Debian's packages that pitplan needs."""
    return named_in(listed().partition(OF_TESTS)[0])


def needed_by_desk():
    """Those that its desk needs beside them."""
    return named_in(listed().partition(OF_DESK)[2].partition("\n")[2])


def listed():
    """The text of python/packages."""
    return (tree.TOP / "python" / "packages").read_text()


def named_in(text):
    """The packages that a part of it names."""
    return [line for line in text.splitlines() if line and not line.startswith("#")]


def sources():
    """The files of the Python package, by their path below python/."""
    folder = tree.TOP / "python"
    return sorted(
        it.relative_to(folder)
        for it in folder.glob("pitplan/**/*")
        if it.is_file() and "__pycache__" not in it.parts
    )


def wheel(time, room):
    """The wheel, by setuptools: its name and its bytes, which hang on the files and the time of the commit."""
    folder = Path(room) / "wheel"
    for name, source in {
        **{it: Path("python") / it for it in sources()},
        "pyproject.toml": "python/pyproject.toml",
        "LICENSE": "LICENSE",
    }.items():
        (folder / name).parent.mkdir(parents=True, exist_ok=True)
        shutil.copyfile(tree.TOP / source, folder / name)
        (folder / name).chmod(0o644)
    made = subprocess.run(
        [PYTHON, "-I", "-c", "from setuptools import build_meta; build_meta.build_wheel('made')"],
        cwd=folder,
        env=dict(os.environ, SOURCE_DATE_EPOCH=str(time), LC_ALL="C"),
        stdout=subprocess.PIPE,
        stderr=subprocess.STDOUT,
        text=True,
    )
    if made.returncode:
        raise ValueError(
            "the wheel of pitplan wasn't made; it needs Debian's packages python3-setuptools and python3-wheel:\n"
            + made.stdout[-2000:]
        )
    found = next((folder / "made").glob("*.whl"))
    return found.name, found.read_bytes()


def debian_files(program, about, site, made_wheel):
    """What the Debian package installs, by its path below /: all that the program's does, and what the wheel holds but the desk."""
    files = packages.debian_files(program, about, site, "pitplan")
    files.update({at: it for at, it in held_in(made_wheel).items() if not at.startswith(DESK)})
    files["usr/bin/pitplan"] = packages.file("bin/pitplan")
    files["usr/share/man/man1/pitplan.1.gz"] = File(
        packages.zipped(packages.read("docs/pitplan.1")), 0o644
    )
    files.update(packages.completions("pitplan", packages.SHELLS_PATHS))
    return files


def held_in(made_wheel):
    """What a wheel installs, by its path below /."""
    with zipfile.ZipFile(io.BytesIO(made_wheel)) as held:
        names = [name for name in held.namelist() if not name.endswith("/RECORD")]
        return {INTO + name: File(held.read(name), 0o644) for name in names}


def scripts(package):
    """What is run as a package is installed and removed."""
    texts = {"postinst": POSTINST % package, "prerm": PRERM % package}
    return {name: File(text.encode(), 0o755) for name, text in texts.items()}


def desk(facts, made_wheel, time, room):
    """The bytes of the Debian package of the desk, over that of pitplan of the same version."""
    own = "usr/share/doc/pitplan-desk/"
    files = {at: it for at, it in held_in(made_wheel).items() if at.startswith(DESK)}
    files[own + "copyright"] = packages.file("LICENSE")
    files[own + "changelog.gz"] = File(packages.zipped(packages.read("CHANGELOG.md")), 0o644)
    depends = ", ".join(["pitplan (= %s)" % facts["version"], *needed_by_desk()])
    control = packages.control("pitplan-desk", facts["version"], depends, files, DESK_DESCRIPTION)
    return packages.debian(files, control, time, room, scripts("pitplan-desk"))


def debian(program, facts, about, site, made_wheel, time, room):
    """The bytes of the Debian package. `facts` has the version, and the C library that the program needs; `site` is the manual's."""
    files = debian_files(program, about, site, made_wheel)
    more = "Provides: pit (= %(version)s)\nConflicts: pit\nReplaces: pit\n" % facts
    depends = ", ".join(
        [
            "libc6 (>= %s)" % facts["libc"],
            *("%s (>= 3.11)" % it if it == "python3" else it for it in needed()),
        ]
    )
    control = packages.control("pitplan", facts["version"], depends, files, DESCRIPTION, more)
    return packages.debian(files, control, time, room, scripts("pitplan"))
