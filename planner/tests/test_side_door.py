"""Who isn't the operator publishes nothing: a web page in Chromium, which can have bytes sent to
ports of this machine, and another user at a socket file.
"""

from __future__ import annotations

import os
import socket
import socketserver
import subprocess
import sys
import tempfile
import threading
from contextlib import contextmanager
from http.server import BaseHTTPRequestHandler, ThreadingHTTPServer

import pytest

from saminoha_planner.client import Operator, Session
from saminoha_planner.client.server import serving

LINES = b"x 2\npublish\n"
LONG = (3_000, 200_000)
# A page sends the lines to each of the ports in all the ways that it has, behind addresses of any
# length, and tells when all of them have failed.
PAGE = """<!doctype html><meta charset="utf-8"><title>A page</title><body><script>
const lines = "x 2\\npublish\\nbye\\n";
const until = (begin) => new Promise((end) => { begin(end); setTimeout(end, 20000); });
const add = (kind, words) => document.body.appendChild(
  Object.assign(document.createElement(kind), words));

const form = (address, enctype) => until((end) => {
  const frame = add("iframe", { name: `frame${document.forms.length}` });
  frame.onload = end;
  const sent = add("form", { action: address, method: "POST", enctype, target: frame.name });
  sent.appendChild(Object.assign(document.createElement("textarea"),
    { name: lines, value: lines }));
  sent.submit();
});
const request = (address, method) => until((end) => {
  const asked = new XMLHttpRequest();
  asked.onloadend = end;
  asked.open(method, address);
  asked.send(lines);
});
const socket = (address) => until((end) => {
  const opened = new WebSocket(address.replace("http", "ws"));
  opened.onopen = () => opened.send(lines);
  opened.onclose = end;
});
const image = (address) => until((end) => add("img", { onerror: end, src: address }));

const ways = [
  (address) => fetch(address, { method: "POST", mode: "no-cors", body: lines }),
  (address) => fetch(address, { method: "POST", mode: "no-cors", body: new Blob([lines]) }),
  (address) => fetch(address, { mode: "no-cors" }),
  (address) => form(address, "text/plain"),
  (address) => form(address, "multipart/form-data"),
  (address) => request(address, "POST"),
  (address) => request(address, "PUT"),
  (address) => socket(address),
  (address) => image(address),
  async (address) => navigator.sendBeacon(address, lines),
];

async function knock(ports, lengths) {
  for (const port of ports) {
    add("link", { rel: "preconnect", href: `http://127.0.0.1:${port}` });
    for (const scheme of ["http", "https"])
      for (const length of lengths) {
        const address = `${scheme}://127.0.0.1:${port}/${"z".repeat(length)}`;
        await Promise.allSettled(ways.map((way) => way(address)));
      }
  }
}
</script>"""


class Site(BaseHTTPRequestHandler):
    def do_GET(self) -> None:
        self.send_response(200)
        self.end_headers()
        self.wfile.write(PAGE.encode())

    def log_message(self, *_) -> None:
        pass


class Recorder(socketserver.BaseRequestHandler):
    """Keeps what comes, and closes without a reply."""

    def handle(self) -> None:
        self.request.settimeout(2)
        data = b""
        try:
            while part := self.request.recv(2**16):
                data += part
        except OSError:
            pass
        self.server.came.append(data)


@contextmanager
def listening(kind, handler):
    with kind(("127.0.0.1", 0), handler) as server:
        server.came = []
        threading.Thread(target=server.serve_forever, daemon=True).start()
        yield server
        server.shutdown()


@pytest.fixture
def driver():
    from test_browser import MISSING, chromium

    if MISSING:
        pytest.skip(f"no page knocks: install {' '.join(MISSING)}")
    with chromium("en-GB") as browser:
        browser.driver.set_script_timeout(600)
        yield browser.driver


def knock(driver, page, *ports) -> None:
    driver.get(f"http://127.0.0.1:{page.server_address[1]}/")
    told = driver.execute_async_script(
        "knock(arguments[0], arguments[1]).then(() => arguments[2]('done'), arguments[2])",
        list(ports),
        [0, *LONG],
    )
    assert told == "done"


def test_a_page_sends_the_lines(driver):
    """Where nothing minds HTTP they come, behind a line of HTTP, and by TLS, where none is."""
    with (
        listening(ThreadingHTTPServer, Site) as page,
        listening(socketserver.ThreadingTCPServer, Recorder) as recorder,
    ):
        knock(driver, page, recorder.server_address[1])
        plain = [data.split(b"\n", 1) for data in recorder.came if b"HTTP/1.1\r\n" in data]
        for length in (0, *LONG):
            rests = [rest for first, rest in plain if length < len(first) < length + 50]
            came = [rest for rest in rests if LINES in rest.replace(b"\r\n", b"\n")]
            assert len(came) >= 6, (length, len(rests), len(came))
        assert any(data.startswith(b"\x16\x03") for data in recorder.came)


def test_a_page_publishes_nothing(driver, served, six_arcs):
    with listening(ThreadingHTTPServer, Site) as page, served(six_arcs) as server:
        with Session(server.host, server.port) as session:
            before = session.query(1, 4)
        knock(driver, page, server.port, server.operator_port)
        with (
            Session(server.host, server.port) as session,
            Operator(server.host, server.operator_port) as operator,
        ):
            assert session.epoch() == 0
            assert operator.publish() == 1
            assert session.wait(1) == 1
            assert session.query(1, 4).routes == before.routes


# What a browser sends by TLS to go on with a session: among its bytes is the session's number,
# which whoever had the name before gave it.
HELLO = b"\x16\x03\x01\x00\x4d\x01\x00\x00\x49\x03\x03%b\x20%b\x00\x02\xc0\x2f\x01\x00" % (
    b"." * 32,
    (b"\n" + LINES).ljust(32, b"."),
)


def test_lines_in_a_session_of_tls(served, six_arcs):
    with served(six_arcs) as server:
        with socket.create_connection((server.host, server.operator_port)) as link:
            link.sendall(HELLO)
            link.shutdown(socket.SHUT_WR)
            while link.recv(1000):
                pass
        with Session(server.host, server.port) as session:
            assert session.epoch() == 0


ASK = """import socket, sys
link = socket.socket(socket.AF_UNIX)
link.settimeout(60)
try:
    link.connect(sys.argv[1])
except PermissionError:
    sys.exit("refused")
link.sendall(b"publish\\n")
print(link.recv(100).decode(), end="")
"""
NOBODY = 65534


@pytest.mark.skipif(os.getuid() != 0, reason="only root can ask as another user")
def test_another_user_at_a_socket_file(program, six_arcs):
    def asks(user: int) -> tuple[str, str]:
        words = [sys.executable, "-I", "-c", ASK, f"{folder}/operator"]
        who = {"user": user, "group": user, "extra_groups": []}
        done = subprocess.run(words, capture_output=True, text=True, cwd="/", timeout=300, **who)
        return done.stdout, done.stderr.strip()

    with tempfile.TemporaryDirectory() as folder:
        os.chmod(folder, 0o755)
        words = [program.path, "serve", "--listen", f"unix:{folder}/sessions"]
        words += ["--operator", f"unix:{folder}/operator", "--lanes", "1", *six_arcs]
        with serving(words, "", (0, 0), 1):
            assert asks(NOBODY) == ("", "refused")
            assert asks(0) == ("k 1\n", "")
            os.chmod(f"{folder}/operator", 0o666)  # it is the mode that refused
            assert asks(NOBODY) == ("k 2\n", "")
