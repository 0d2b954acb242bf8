from __future__ import annotations

import json
import socket
import threading

import pytest

from saminoha_planner.client import (
    Answer,
    ClientError,
    Costs,
    Drop,
    Epoch,
    Now,
    Operator,
    OperatorRefused,
    Program,
    ProgramFailed,
    Proof,
    ProtocolError,
    Publish,
    Query,
    Refusal,
    Refused,
    Route,
    Session,
    SetArc,
    ShutArc,
    Sizes,
    TimedOut,
    Wait,
    parse_address,
    parse_orders,
)

BOTH = (Route((2, 8), (1, 3)), Route((4, 2), (2, 4)))


def test_commands(program, six_arcs):
    assert program.check(six_arcs) == Sizes(4, 6, 2)
    assert program.query(six_arcs, 1, 4) == Answer(0, 1, 4, BOTH)
    assert program.query(six_arcs, 1, 4, (None, 7)) == Answer(0, 1, 4, BOTH[1:], (None, 7))
    assert program.costs(six_arcs, 1, 4).routes == (Route((2, 8)), Route((4, 2)))
    assert program.query(six_arcs, 4, 4).routes == (Route((0, 0), ()),)


def test_batch_tells_refusals_in_their_place(program, six_arcs):
    assert list(program.batch(six_arcs, [(1, 4), (1, 9), (4, 1)])) == [
        Answer(0, 1, 4, BOTH),
        Refusal(0, 1, 9, "node"),
        Answer(0, 4, 1, ()),
    ]


def test_a_day_of_lanes(program, six_arcs):
    orders = [ShutArc(2), Publish(), SetArc(2, (3, 3)), Publish(), SetArc(1, (9, 9)), Drop()]
    run = program.lanes(
        six_arcs, orders, [[Wait(2), Query(1, 4, (None, 7)), Wait(9), Now()], [Costs(9, 1)]]
    )
    assert run.operator == [None, Epoch(1), None, Epoch(2), None, None]
    within = (Route((4, 6), (1, 5, 4)), Route((5, 4), (2, 4)))
    assert run.sessions[0] == [
        Epoch(2),
        Answer(2, 1, 4, within, (None, 7)),
        Epoch(2, closed=True),
        Epoch(2),
    ]
    [refusal] = run.sessions[1]
    assert isinstance(refusal, Refusal) and refusal.reason == "node"


def test_faults_of_the_program(program, six_arcs, tmp_path):
    with pytest.raises(Refused) as refused:
        program.query(six_arcs, 1, 9)
    assert refused.value.refusal.reason == "node"
    with pytest.raises(Refused):
        Program(program.path, budget=1).query(six_arcs, 1, 4)
    with pytest.raises(ProgramFailed) as failed:
        program.check([*six_arcs, str(tmp_path / "none.gr")])
    assert failed.value.status == 3
    with pytest.raises(ClientError):
        Program.find("/no/such/program")


def test_routes_are_asked_toward_their_targets(program, six_arcs):
    """From 1 to 3 two labels are goal-relevant, and three are relevant."""
    poor = Program(program.path, budget=2)
    answer = Answer(0, 1, 3, (Route((2, 1), (2,)),))
    assert poor.query(six_arcs, 1, 3) == answer
    assert list(poor.batch(six_arcs, [(1, 3)])) == [answer]
    with poor.serve(six_arcs) as server, Session(server.host, server.port) as session:
        assert session.query(1, 3) == answer
        assert session.query(1, 3, (None, 1)).routes == answer.routes
        with pytest.raises(Refused):
            session.costs(1, 3)


def test_a_slow_program_is_ended(tmp_path, six_arcs):
    slow = tmp_path / "slow"
    slow.write_text("#!/bin/sh\nexec sleep 60\n")
    slow.chmod(0o755)
    program = Program.find(str(slow), timeout=0.3)
    with pytest.raises(TimedOut):
        program.check(six_arcs)
    with pytest.raises(TimedOut):
        list(program.batch(six_arcs, [(1, 4)]))


@pytest.mark.parametrize(
    "said, proof",
    [
        ("route: the program is proved, for x86-64-v3", Proof.PROVED),
        (
            "route: no proved program of these sources stands; ./route build makes it",
            Proof.UNPROVED,
        ),
        ("", Proof.UNKNOWN),
    ],
)
def test_whether_the_program_is_proved(tmp_path, said, proof):
    file = tmp_path / "route"
    file.write_text(f"#!/bin/sh\necho '{said}'\n")
    file.chmod(0o755)
    assert Program.find(str(file)).proof() is proof


def test_session_and_operator(six_arcs, served):
    with served(six_arcs) as server, Session(server.host, server.port) as session, Operator(
        server.host, server.operator_port
    ) as operator:
        assert session.epoch() == 0
        assert session.query(1, 4) == Answer(0, 1, 4, BOTH)
        assert session.query(1, 4, limits=(None, 7)).routes == BOTH[1:]
        assert session.costs(1, 4).routes == (Route((2, 8)), Route((4, 2)))
        operator.shut(2)
        assert operator.publish() == 1
        assert session.wait(1) == 1
        assert session.query(1, 4).routes == (Route((2, 8), (1, 3)), Route((4, 6), (1, 5, 4)))
        operator.set(2, (3, 3))
        operator.drop()
        assert operator.publish() == 2
        for wrong, reason in (
            (lambda: operator.shut(7), "arc"),
            (lambda: operator.set(1, (0, 0)), "zero"),
        ):
            with pytest.raises(OperatorRefused) as refused:
                wrong()
            assert refused.value.reason == reason
        with pytest.raises(Refused):
            session.query(1, 5)
        with pytest.raises(TimedOut):
            session.wait(99, timeout=0.3)


def test_the_number_of_criteria_is_learnt(town, served):
    with served(town.files) as server, Session(server.host, server.port) as session:
        assert session.criteria == 3
        assert len(session.query(town.find("Northend"), town.find("Southend")).routes[0].cost) == 3


def test_faults_of_a_session():
    with pytest.raises(ClientError):
        Session("127.0.0.1", 1, timeout=1)
    for reply, expected in (
        (None, TimedOut),
        (b"nonsense\n", ProtocolError),
        (b"k", ProtocolError),
        (b"", ProtocolError),
    ):
        with _speaker(reply) as port, Session("127.0.0.1", port, timeout=0.3) as session:
            with pytest.raises(expected):
                session.epoch()
            with pytest.raises(ClientError):
                session.epoch()


class _speaker:
    """Sends the bytes to whoever connects and ends; with None it says nothing for a while."""

    def __init__(self, reply):
        self.reply, self.done = reply, threading.Event()
        self.socket = socket.create_server(("127.0.0.1", 0))

    def __enter__(self):
        threading.Thread(target=self._speak, daemon=True).start()
        return self.socket.getsockname()[1]

    def _speak(self):
        link, _ = self.socket.accept()
        link.recv(100)
        if self.reply is None:
            self.done.wait(5)
        else:
            link.sendall(self.reply)
        link.close()

    def __exit__(self, *_):
        self.done.set()
        self.socket.close()


def test_certificates(program, six_arcs, tmp_path):
    if not (program.knows("prove") and program.knows("verify")):
        pytest.skip("the program has no commands prove and verify yet")
    certificate = tmp_path / "certificate"
    certificate.write_text(program.prove(six_arcs, 1, 4))
    assert program.verify(six_arcs, certificate, 1, 4).routes == BOTH
    certificate.write_text("".join(certificate.read_text().splitlines(keepends=True)[:-1]))
    with pytest.raises(ProgramFailed) as failed:
        program.verify(six_arcs, certificate, 1, 4)
    assert failed.value.status == 11


def test_texts():
    assert parse_orders("s 1 2 3\n\nx 4\npublish\ndrop\nbye\nnonsense") == [
        SetArc(1, (2, 3)),
        ShutArc(4),
        Publish(),
        Drop(),
    ]
    for wrong in ("s 1 2", "x", "publish now", "x -1"):
        with pytest.raises(ValueError):
            parse_orders(wrong)
    assert parse_address("host:70") == ("host", 70) and parse_address("70") == ("127.0.0.1", 70)
    with pytest.raises(ValueError):
        parse_address("host:")


def test_the_command(tool, six_arcs, served):
    with served(six_arcs) as server:
        told = json.loads(tool("client.py", f"{server.host}:{server.port}", 1, 4, "-", 7))
    assert [route["cost"] for route in told["routes"]] == [[4, 2]]
    assert told["limits"] == [None, 7]
    assert "invalid" in tool("client.py", "127.0.0.1:1", 1, 4, "much", status=2)
