"""pitplan's command line in forks of one process that has imported all of it: to start it takes a second each time, and the tests start
it a hundred times. A fork has the words, the folder, the environment and the open files of whoever asks.

    served.py SOCKET        serves
    pitplan WORDS..         in a folder of `linked`: asks, and ends with the status of what it asked for
"""
import os
import socket
import sys

HERE = os.path.dirname(os.path.abspath(__file__))
TOP = os.path.dirname(os.path.dirname(os.path.dirname(HERE)))
PITPLAN = os.path.join(TOP, "bin", "pitplan")
PYTHON = "/usr/bin/python3"
NONE = b"\0"
ASK = """#!{python} -IS
import os, sys
sys.path.insert(0, {tests!r})
from served import ask
sys.exit(ask({path!r}, [sys.argv[0], *sys.argv[1:]], os.getcwd(), os.environ, [0, 1, 2]))
"""
_server = {}  # of these tests: its process, and the path of its socket


def ask(path, words, folder, environment, files):
    """Has the server run words, and gives the exit status."""
    found = NONE.join(
        map(
            os.fsencode,
            [
                str(len(words)),
                *words,
                folder,
                *(f"{key}={value}" for key, value in environment.items()),
            ],
        )
    )
    with socket.socket(socket.AF_UNIX) as asked:
        asked.connect(path)
        socket.send_fds(asked, [len(found).to_bytes(8, "little")], files)
        asked.sendall(found)
        said = asked.recv(1)
        return said[0] if said else 70


def answer(asked):
    """In a fork: takes over what is asked for, and runs it."""
    length, files, _, _ = socket.recv_fds(asked, 8, 3)
    found = b""
    while len(found) < int.from_bytes(length, "little"):
        found += asked.recv(1 << 16)
    count, *parts = map(os.fsdecode, found.split(NONE))
    for target, file in enumerate(files):
        os.dup2(file, target)
        os.close(file)
    sys.argv = parts[: int(count)]
    os.chdir(parts[int(count)])
    os.environ.clear()
    os.environ.update(part.split("=", 1) for part in parts[int(count) + 1 :])
    status = status_of_main()
    asked.sendall(bytes([status]))
    os._exit(0)


def status_of_main():
    """Runs the command line of `sys.argv` in this process, and gives its exit status."""
    from pitplan.cli.main import main

    status = 70
    try:
        main()
    except SystemExit as ended:
        status = ended.code if isinstance(ended.code, int) else 1 if ended.code else 0
    except BaseException:
        import traceback

        traceback.print_exc()
    sys.stdout.flush()
    sys.stderr.flush()
    return status


def load_all():
    """Imports all of pitplan, so that forks have it."""
    import pkgutil
    import importlib
    import pitplan

    for module in pkgutil.walk_packages(pitplan.__path__, "pitplan."):
        if not module.name.endswith((".__main__", ".recheck", ".plainly")):
            importlib.import_module(module.name)
    import matplotlib

    matplotlib.use("Agg")
    import matplotlib.pyplot  # noqa: F401


def serve(path):
    """Serves until its standard input ends, which is when the tests do."""
    import select

    sys.path[:0] = [os.path.join(TOP, "python"), HERE]
    load_all()
    from mines import SIZE
    from pitplan.slopes.offsets import wall
    from pitplan.slopes.slopes import kept_search

    kept_search(wall(SIZE, 45), False, None)  # that of nearly all tests
    with socket.socket(socket.AF_UNIX) as door:
        door.bind(path + ".part")
        door.listen(64)
        os.rename(path + ".part", path)  # who sees the door finds it open
        while door in select.select([door, sys.stdin], [], [])[0]:
            asked, _ = door.accept()
            if os.fork() == 0:
                door.close()
                answer(asked)
            asked.close()
            for _ in iter(ended, 0):
                pass


def ended():
    """A fork that has ended, 0 where none has."""
    try:
        return os.waitpid(-1, os.WNOHANG)[0]
    except ChildProcessError:
        return 0


def server():
    """The socket of a server, which is started once."""
    import atexit
    import shutil
    import subprocess
    import tempfile
    import time

    if not _server or _server["run"].poll() is not None:
        room = tempfile.mkdtemp(prefix="pitplan-tests.")
        atexit.register(shutil.rmtree, room, ignore_errors=True)
        path = os.path.join(room, "door")
        environment = {
            key: value for key, value in os.environ.items() if key not in ("COLUMNS", "LINES")
        }
        _server["run"] = subprocess.Popen(
            [PYTHON, "-I", os.path.abspath(__file__), path],
            stdin=subprocess.PIPE,
            stdout=subprocess.DEVNULL,
            env=environment,
        )
        _server["path"] = path
        while not os.path.exists(path):
            assert _server["run"].poll() is None, "the server of pitplan's command line ended"
            time.sleep(0.02)
    return _server["path"]


def pitplan(*words, cwd=None, **environment):
    """Runs pitplan as a planner does: what it said, and its status."""
    import tempfile
    from types import SimpleNamespace

    with tempfile.TemporaryFile() as out, tempfile.TemporaryFile() as err, open(
        os.devnull
    ) as nothing:
        status = ask(
            server(),
            [PITPLAN, *map(str, words)],
            str(cwd or os.getcwd()),
            {**os.environ, **environment},
            [nothing.fileno(), out.fileno(), err.fileno()],
        )
        texts = []
        for file in (out, err):
            file.seek(0)
            texts.append(file.read().decode())
    return SimpleNamespace(returncode=status, stdout=texts[0], stderr=texts[1])


def linked(folder):
    """A folder with a command pitplan that asks the server."""
    folder.mkdir(parents=True, exist_ok=True)
    path = folder / "pitplan"
    path.write_text(
        ASK.format(python=PYTHON, tests=os.path.dirname(os.path.abspath(__file__)), path=server())
    )
    path.chmod(0o755)
    return folder


if __name__ == "__main__":
    serve(sys.argv[1])
