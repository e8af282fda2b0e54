"""What a release holds, and archives of it that have the same bytes wherever they are made.

An archive's bytes depend on its files' names, modes and bytes and on the time of the commit, and on nothing of the
machine: members are sorted, belong to root, and have the commit's time.
"""
import gzip
import hashlib
import io
import os
import re
import subprocess
import tarfile
import tempfile
from collections import namedtuple
from pathlib import Path

import tree

File = namedtuple("File", "data mode")
OWN_PATHS = {shell: "completions/%s." + shell for shell in ("bash", "zsh", "fish")}
# where Debian's shells look for what they complete, below /
SHELLS_PATHS = {
    "bash": "usr/share/bash-completion/completions/%s",
    "zsh": "usr/share/zsh/vendor-completions/_%s",
    "fish": "usr/share/fish/vendor_completions.d/%s.fish",
}
DESCRIPTION = """finds and checks ultimate pits of open-pit mines, with proofs
 pit reads a block model and its slopes in MineLib's formats, finds the most
 valuable pit, and writes a certificate that shows that no pit is worth more.
 It checks the certificate of any solver, and draws nested shells and bench
 tables. It is written in Rattle: every function is proved to meet its contract.
"""


def read(name):
    return (tree.TOP / name).read_bytes()


def file(name):
    """A file of the tree. Of its mode only counts whether it can be run, which is all that git keeps."""
    return File(read(name), 0o755 if os.access(tree.TOP / name, os.X_OK) else 0o644)


def names_in(folder, pattern="*"):
    return sorted(
        "%s/%s" % (folder, at.name) for at in (tree.TOP / folder).glob(pattern) if at.is_file()
    )


def programs(folder, library, program):
    """The launcher in one folder and the program in another, by path: it finds it beside itself or one folder up."""
    return {
        folder + "pit": File(read("tools/launcher"), 0o755),
        library + "lib/pontihaw/pit": File(program, 0o755),
    }


def documents():
    """The texts that the README leads to, and the example that they type commands on."""
    return [
        "README.md",
        "CHANGELOG.md",
        "LICENSE",
        *names_in("docs", "*.md"),
        *names_in("docs/pictures"),
        *names_in("examples"),
        *names_in("examples/copper"),
        *names_in("examples/hill"),
        "python/pitplan/slopes/offsets.py",
    ]  # which examples/offsets.py runs


def completions(command, paths=None):
    """What shells complete after a command, by its path in an archive, or by the paths for each shell that are given."""
    return {
        (paths or OWN_PATHS)[shell] % command: file(OWN_PATHS[shell] % command)
        for shell in OWN_PATHS
    }


def toolchain(tool, *words):
    """Runs a tool of the kit's LLVM, which is one program under several names, and gives its standard output."""
    clang = tree.kit_folder() / "toolchain" / "bin" / "clang"
    return subprocess.run(
        [tool, *words], executable=clang, stdout=subprocess.PIPE, check=True, text=True
    ).stdout


def stripped(program, room):
    """The program's bytes without symbols and notes that don't count when it runs."""
    to = Path(room) / "pit"
    toolchain("llvm-strip", "--strip-all", "-o", str(to), str(program))
    return to.read_bytes()


def c_library(program):
    """The oldest version of the C library that has all that the program calls."""
    called = toolchain("llvm-nm", "-D", "--undefined-only", "-j", str(program))
    versions = re.findall(r"@+GLIBC_(\d+)\.(\d+)", called)
    return (
        "%d.%d" % max((int(major), int(minor)) for major, minor in versions)
        if versions
        else "2.2.5"
    )


def zipped(data):
    """Compressed by GNU gzip, without a name and a time."""
    return subprocess.run(
        ["gzip", "-n", "-9"], input=data, stdout=subprocess.PIPE, check=True
    ).stdout


def tarred(files, time):
    """A tar file of the files, by their paths, with the folders above them."""
    folders = {str(above) for path in files for above in Path(path).parents if str(above) != "."}
    text = io.BytesIO()
    with tarfile.open(fileobj=text, mode="w", format=tarfile.GNU_FORMAT) as archive:
        for path in sorted([*folders, *files]):
            member = tarfile.TarInfo(path)
            member.uname = member.gname = "root"
            member.mtime = time
            its = files.get(path)
            member.type, member.mode = (
                (tarfile.REGTYPE, its.mode) if its else (tarfile.DIRTYPE, 0o755)
            )
            member.size = len(its.data) if its else 0
            archive.addfile(member, io.BytesIO(its.data) if its else None)
    return text.getvalue()


def tarball(name, program, about, time):
    """The archive to unpack anywhere: the program, its manual page, the documents and the example, below a folder of this name."""
    files = {
        **programs("", "", program),
        "pit.1": file("docs/pit.1"),
        "BUILT.txt": File(about, 0o644),
        **completions("pit"),
    }
    files.update({path: file(path) for path in documents()})
    return zipped(tarred({"%s/%s" % (name, path): its for path, its in files.items()}, time))


def debian_files(program, about, site, package="pit"):
    """What the Debian package of the program installs, by its path below /; with its documents, and the manual's site, below the name of this
    package."""
    own = "usr/share/doc/%s/" % package
    files = {
        **programs("usr/bin/", "usr/", program),
        "usr/share/man/man1/pit.1.gz": File(zipped(read("docs/pit.1")), 0o644),
        **completions("pit", SHELLS_PATHS),
        own + "BUILT.txt": File(about, 0o644),
        own + "copyright": file("LICENSE"),
        own + "changelog.gz": File(zipped(read("CHANGELOG.md")), 0o644),
    }
    files.update(
        {own + path: file(path) for path in documents() if path not in ("LICENSE", "CHANGELOG.md")}
    )
    files.update((own + "manual/" + path, File(data, 0o644)) for path, data in site.items())
    return files


def control(package, version, depends, files, description=DESCRIPTION, more=""):
    """The text of a Debian package's control file; `more` are lines of further fields."""
    size = sum(-(-len(its.data) // 1024) for its in files.values())
    return (
        "Package: %s\nVersion: %s\nArchitecture: amd64\nMaintainer: Pontihaw maintainers <maintainers@users.noreply.pontihaw.example>\n"
        "Installed-Size: %d\nDepends: %s\n%sSection: science\nPriority: optional\nDescription: %s"
        % (package, version, size, depends, more, description)
    ).encode()


def debian(files, about_package, time, room, scripts={}):
    """A Debian package of the files, with this control file, and scripts that are run as it is installed and removed."""
    folder = Path(tempfile.mkdtemp(dir=room))
    sums = "".join(
        "%s  %s\n" % (hashlib.md5(files[path].data).hexdigest(), path) for path in sorted(files)
    )
    of_package = {
        "DEBIAN/control": File(about_package, 0o644),
        "DEBIAN/md5sums": File(sums.encode(), 0o644),
    }
    of_package.update(("DEBIAN/" + name, its) for name, its in scripts.items())
    for path, its in {**of_package, **files}.items():
        to = folder / path
        to.parent.mkdir(parents=True, exist_ok=True)
        to.write_bytes(its.data)
        to.chmod(its.mode)
    for at in [folder, *folder.rglob("*")]:
        if at.is_dir():
            at.chmod(0o755)
        os.utime(at, (time, time))
    made = folder.with_suffix(".deb")
    # gzip's bytes don't depend on the number of processors, as those of several threads of xz do
    subprocess.run(
        ["dpkg-deb", "--root-owner-group", "-Zgzip", "-z9", "--build", str(folder), str(made)],
        check=True,
        stdout=subprocess.DEVNULL,
        env=dict(os.environ, SOURCE_DATE_EPOCH=str(time), LC_ALL="C"),
    )
    return made.read_bytes()


def members(data):
    """What a tar file that is compressed holds, by path: mode and bytes."""
    with tarfile.open(fileobj=io.BytesIO(gzip.decompress(data))) as archive:
        return {
            it.name: (it.mode, archive.extractfile(it).read() if it.isfile() else None)
            for it in archive
        }
