from __future__ import annotations

from datetime import timedelta
from multiprocessing import get_context

import pytest

from saminoha_planner.client import SetArc, ShutArc
from saminoha_planner.closures import LOG, Closure, Log, State, active, now
from saminoha_planner.command import Fault


@pytest.fixture
def log(tmp_path):
    return Log(tmp_path / LOG)


def test_what_stands_and_what_is_lifted(log):
    assert log.read() == []
    quay = Closure("Quay", "shut", (ShutArc(7), ShutArc(8)), "to the bridge", "works", "Ann")
    slow = Closure("Quay", "slow=2", (SetArc(8, (3, 20, 0)),), author="Ben", epoch=4)
    log.add(quay)
    log.add(slow)
    again = Log(log.file)
    assert again.read() == [quay, slow] and again.read()[0].arcs == [7, 8]
    assert active(again.read()) == {7: ShutArc(7), 8: SetArc(8, (3, 20, 0))}
    again.lift(slow.name, "Ann", 5)
    again.lift(slow.name, "Ann", 6)  # once is enough
    [first, second] = log.read()
    assert (first.state(), second.state(), second.lifted_epoch) == (State.ACTIVE, State.ENDED, 5)
    assert active(log.read()) == {7: ShutArc(7), 8: ShutArc(8)}
    with pytest.raises(Fault):
        log.lift("none")


def test_planned_ones_begin_and_end(log):
    hour = timedelta(hours=1)
    log.add(Closure("Quay", "shut", (ShutArc(7),), begin=now() + hour, end=now() + 3 * hour))
    [closure] = log.read()
    states = [closure.state(now() + hours * hour) for hours in (0, 2, 4)]
    assert states == [State.PLANNED, State.ACTIVE, State.ENDED]
    assert active([closure]) == {} and active([closure], now() + 2 * hour) == {7: ShutArc(7)}
    with pytest.raises(Fault):
        log.add(Closure("Quay", "shut", (), begin=now(), end=now() - hour))


def test_an_unfinished_line_is_none_and_goes(log):
    log.add(Closure("Quay", "shut", (ShutArc(7),)))
    with log.file.open("a") as out:
        out.write('{"id": "half')
    assert len(log.read()) == 1
    log.add(Closure("Spur", "shut", (ShutArc(9),)))
    assert [one.road for one in log.read()] == ["Quay", "Spur"]
    log.file.write_text("no json\n")
    with pytest.raises(Fault, match="line 1"):
        log.read()


def add_many(file, road):
    for arc in range(1, 51):
        Log(file).add(Closure(road, "shut", (ShutArc(arc),)))


def test_several_write_at_once(log):
    context = get_context("spawn")
    writers = [context.Process(target=add_many, args=(log.file, road)) for road in "ABC"]
    for one in writers:
        one.start()
    for one in writers:
        one.join()
    roads = [one.road for one in log.read()]
    assert sorted(roads) == sorted("ABC" * 50)
