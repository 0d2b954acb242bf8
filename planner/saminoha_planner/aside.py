"""What another process makes meanwhile."""

from __future__ import annotations

import signal
from collections.abc import Callable
from functools import partial
from multiprocessing import get_context
from multiprocessing.connection import Connection
from typing import Generic, ParamSpec, TypeVar

from .command import Fault

Made = TypeVar("Made")
Words = ParamSpec("Words")


class Aside(Generic[Made]):
    """A call that is begun at once. Its process is a copy of this one, so that it is to be begun
    before threads are; it ends with this one.
    """

    def __init__(
        self, call: Callable[Words, Made], *words: Words.args, **named: Words.kwargs
    ) -> None:
        context = get_context("fork")
        self._told, teller = context.Pipe(duplex=False)
        self._process = context.Process(
            target=_tell, args=(teller, partial(call, *words, **named)), daemon=True
        )
        self._process.start()
        teller.close()

    def result(self) -> Made:
        """Waits for what is made; a fault of the call is one here."""
        try:
            made, fault = self._told.recv()
        except EOFError as end:
            raise Fault("a process that helped was ended: there may be too little memory") from end
        self._process.join()
        if fault:
            raise fault
        return made


def _tell(teller: Connection, call: Callable[[], object]) -> None:
    signal.signal(signal.SIGINT, signal.SIG_IGN)
    try:
        made, fault = call(), None
    except Exception as raised:
        made, fault = None, raised
    teller.send((made, fault))
