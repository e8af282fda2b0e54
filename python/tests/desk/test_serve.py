"""How the desk is started, and how it ends."""
import base64
import socket
import time

import pytest

pytest.importorskip("selenium")
pytest.importorskip("starlette")

from desks import Desk, PATIENCE, TOKEN

HALF = """PUT /api/tables/half.csv HTTP/1.1\r
host: 127.0.0.1:{port}\r
origin: http://127.0.0.1:{port}\r
cookie: pitplan-desk-{port}={token}\r
content-length: 1000\r
\r
abc"""


def test_a_desk_ends_whatever_is_still_on_its_way(tmp_path):
    desk = Desk(tmp_path)
    with socket.create_connection(("127.0.0.1", desk.port)) as half:
        half.sendall(HALF.format(port=desk.port, token=TOKEN).encode())
        end = time.time() + PATIENCE
        while not list(tmp_path.glob(".half.csv.*/half.csv")):
            assert time.time() < end
            time.sleep(0.05)
        desk.process.terminate()
        desk.process.communicate(timeout=60)
    assert not desk.process.returncode


def test_it_listens_at_one_address_of_this_machine_and_its_token_is_random(tmp_path):
    tokens = []
    for _ in range(2):
        desk = Desk(tmp_path, PITPLAN_DESK_TOKEN="")
        socket.create_connection(("127.0.0.1", desk.port)).close()
        with pytest.raises(ConnectionRefusedError):
            socket.create_connection(("127.0.0.2", desk.port))
        tokens.append(desk.greeting.partition("?token=")[2].split()[0])
        desk.end()
    assert len(set(tokens)) == 2
    assert all(len(base64.urlsafe_b64decode(token)) * 8 >= 192 for token in tokens)
