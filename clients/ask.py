#!/usr/bin/env python3
"""A small tester: sends requests to a DoIP entity and prints the answers; or steps to the car's
side of doip.py.

    ask.py '10 03' '19 02 FF'
    ask.py --car 'cycle 0' 'fail 0'
"""

from __future__ import annotations

import argparse
import socket
import sys
from collections.abc import Sequence

from wire import (
    Activation,
    HeaderFault,
    Kind,
    Message,
    Nack,
    Stream,
    activation,
    default_port,
    diagnostic,
    logical_address,
    port_number,
)
from words import answer_in_words, hex_of

HOST = "127.0.0.1"


class AskError(Exception):
    """What the entity refuses."""


class Tester:
    """A connection to a DoIP entity, whose routing is activated."""

    def __init__(self, port: int, source: int, seconds: float) -> None:
        """Connects and activates the routing; raises AskError with the code if it is refused."""
        self._socket = socket.create_connection((HOST, port), seconds)
        self._seconds = seconds
        self._source = source
        self._stream = Stream(frozenset(Kind))
        self._messages: list[Message | HeaderFault] = []
        self._socket.sendall(activation(source).encoded())
        answer = self._read(Kind.ACTIVATION_ANSWER)
        if answer.body[4] != Activation.ACTIVATED:
            raise AskError(f"the routing is not activated: code {answer.body[4]:02X}")
        self._entity = int.from_bytes(answer.body[2:4], "big")

    def ask(self, data: bytes, wait: float) -> bytes | None:
        """Sends a request and returns the answer; none if none comes within these seconds."""
        self._socket.sendall(diagnostic(self._source, self._entity, data).encoded())
        self._read(Kind.ACK)
        self._socket.settimeout(wait)
        try:
            return self._read(Kind.DIAGNOSTIC).body[4:]
        except TimeoutError:
            return None
        finally:
            self._socket.settimeout(self._seconds)

    def close(self) -> None:
        """Closes the connection."""
        self._socket.close()

    def _read(self, kind: Kind) -> Message:
        """The next message, which is of this kind; an alive check before it is answered."""
        while True:
            while not self._messages:
                data = self._socket.recv(1 << 16)
                if not data:
                    raise AskError("the entity closed the connection")
                self._messages += self._stream.feed(data)
            it = self._messages.pop(0)
            if isinstance(it, HeaderFault):
                raise AskError(f"an answer has no header of DoIP: {it.name}")
            if it.kind == Kind.ALIVE_CHECK:
                source = self._source.to_bytes(2, "big")
                self._socket.sendall(Message(Kind.ALIVE, source).encoded())
            elif it.kind == Kind.NACK:
                raise AskError(f"the request is not acknowledged: {Nack(it.body[4]).name}")
            elif it.kind == kind:
                return it
            else:
                raise AskError(f"a message of the kind {it.kind.name} came")


def ask_entity(given: argparse.Namespace) -> None:
    """Sends the requests and prints them with their answers."""
    requests = [bytes.fromhex(text) for text in given.line]
    if not all(requests):
        raise ValueError("a request has at least one byte")
    tester = Tester(given.port, given.source, given.seconds)
    try:
        for data in requests:
            answer = tester.ask(data, given.wait)
            shown = "silent" if answer is None else hex_of(answer)
            print(f"{hex_of(data)} -> {shown}")
            for line in answer_in_words(shown) if given.words else ():
                print(f"    {line}")
    finally:
        tester.close()


def ask_car(given: argparse.Namespace) -> None:
    """Makes the steps of the car's side and prints them with their answers."""
    with socket.create_connection((HOST, given.car_port), given.seconds) as it:
        with it.makefile("rw", encoding="ascii", newline="\n") as file:
            for line in given.line:
                file.write(f"{line}\n")
                file.flush()
                print(f"{line} -> {file.readline().rstrip()}")


def main(arguments: Sequence[str] | None = None) -> int:
    """Asks, and prints what comes back."""
    parser = argparse.ArgumentParser(
        description="Sends requests to a DoIP entity, or steps to the car's side.",
        epilog="Exit status: 0 done, 2 a request has no bytes, 69 the entity refuses, or is not"
        " there.",
    )
    parser.add_argument(
        "line", metavar="LINE", nargs="+", help="bytes of a request; with --car a step"
    )
    parser.add_argument("--car", action="store_true", help="the lines are steps of the car's side")
    parser.add_argument("--port", type=port_number, default=default_port())
    parser.add_argument("--car-port", type=port_number, default=default_port() + 1)
    parser.add_argument("--source", type=logical_address, default=0x0E80, help="hexadecimal")
    parser.add_argument(
        "--seconds", type=float, default=10.0, help="how long to wait for the entity"
    )
    parser.add_argument("--wait", type=float, default=1.0, help="how long to wait for an answer")
    parser.add_argument("--words", action="store_true", help="say what an answer means")
    given = parser.parse_args(arguments)
    try:
        (ask_car if given.car else ask_entity)(given)
    except ValueError:
        print("ask.py: a request is bytes of two hexadecimal digits", file=sys.stderr)
        return 2
    except (AskError, OSError) as error:
        print(f"ask.py: {error}", file=sys.stderr)
        return 69
    return 0


if __name__ == "__main__":
    sys.exit(main())
