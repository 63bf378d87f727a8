"""A tester of the tests, over a socket, and an entity in a thread that is joined."""

from __future__ import annotations

import socket
import threading
from types import TracebackType

from entity import Entity
from live import LiveError
from wire import (
    Activation,
    HeaderFault,
    Kind,
    Message,
    Nack,
    Stream,
    activation,
    addresses,
    diagnostic,
)

ALL = frozenset(Kind)
ENTITY = 0x1000
SECONDS = 20.0


class Running:
    """An entity that serves in a thread, which is joined at the end of the context."""

    def __init__(self, entity: Entity) -> None:
        """Takes an entity that does not serve yet."""
        self.entity = entity
        self.ports = entity.ports
        self.end: LiveError | None = None
        self._thread = threading.Thread(target=self._run)

    def _run(self) -> None:
        """Serves; keeps the error with which the memory ended."""
        try:
            self.entity.run()
        except LiveError as error:
            self.end = error

    def __enter__(self) -> Running:
        """Begins to serve."""
        self._thread.start()
        return self

    def __exit__(
        self,
        kind: type[BaseException] | None,
        error: BaseException | None,
        trace: TracebackType | None,
    ) -> None:
        """Stops, and joins the thread."""
        self.entity.stop()
        self._thread.join(SECONDS)
        assert not self._thread.is_alive()


class Connection:
    """A connection to the entity."""

    def __init__(self, port: int, source: int = 0x0E80) -> None:
        """Connects, and activates nothing yet."""
        self.source = source
        self.socket = socket.create_connection(("127.0.0.1", port), SECONDS)
        self._stream = Stream(ALL, 1 << 16)
        self._got: list[Message] = []

    @classmethod
    def of_socket(cls, connected: socket.socket, source: int) -> Connection:
        """A connection over a socket that is connected."""
        made = cls.__new__(cls)
        made.source, made.socket = source, connected
        made.socket.settimeout(SECONDS)
        made._stream, made._got = Stream(ALL, 1 << 16), []
        return made

    def close(self) -> None:
        """Closes the connection."""
        self.socket.close()

    def send(self, data: bytes | Message) -> None:
        """Sends bytes, or a message."""
        self.socket.sendall(data.encoded() if isinstance(data, Message) else data)

    def read(self) -> Message | None:
        """The next message; none if the entity closed the connection."""
        while not self._got:
            try:
                data = self.socket.recv(1 << 16)
            except ConnectionResetError:
                data = b""
            if not data:
                return None
            for it in self._stream.feed(data):
                assert not isinstance(it, HeaderFault), it
                self._got.append(it)
        return self._got.pop(0)

    def kinds(self, count: int) -> list[Kind | None]:
        """The kinds of this many next messages."""
        read = [self.read() for _ in range(count)]
        return [it and it.kind for it in read]

    def activate(self, kind: int = 0, source: int | None = None) -> Activation:
        """Asks for a routing activation and returns its code; answers alive checks meanwhile."""
        self.send(activation(self.source if source is None else source, kind))
        answer = self.read()
        assert answer is not None and answer.kind == Kind.ACTIVATION_ANSWER, answer
        return Activation(answer.body[4])

    def send_request(self, data: bytes) -> None:
        """Sends a request."""
        self.send(diagnostic(self.source, ENTITY, data))

    def read_acknowledge(self) -> Nack | None:
        """Reads the acknowledge; none if it is positive."""
        answer = self.read()
        assert answer is not None and answer.kind in (Kind.ACK, Kind.NACK), answer
        assert addresses(answer.body)[1] == self.source
        return Nack(answer.body[4]) if answer.kind == Kind.NACK else None

    def read_response(self) -> bytes:
        """Reads a response."""
        answer = self.read()
        assert answer is not None and answer.kind == Kind.DIAGNOSTIC, answer
        assert addresses(answer.body) == (ENTITY, self.source)
        return answer.body[4:]

    def ask(self, data: bytes) -> bytes:
        """Sends a request that is answered, and returns the response."""
        self.send_request(data)
        code = self.read_acknowledge()
        assert code is None, code
        return self.read_response()


class CarSide:
    """The car's side."""

    def __init__(self, port: int) -> None:
        """Connects."""
        self.socket = socket.create_connection(("127.0.0.1", port), SECONDS)
        self._file = self.socket.makefile("rw", encoding="ascii", newline="\n")

    def ask(self, line: str) -> str:
        """Makes a step and returns its answer."""
        self._file.write(f"{line}\n")
        self._file.flush()
        return self._file.readline().rstrip("\n")

    def close(self) -> None:
        """Closes the connection."""
        self._file.close()
        self.socket.close()


def datagram(port: int, data: bytes, seconds: float = SECONDS) -> bytes | None:
    """Sends a datagram and returns its answer; none if none comes in time."""
    with socket.socket(socket.AF_INET, socket.SOCK_DGRAM) as it:
        it.settimeout(seconds)
        it.sendto(data, ("127.0.0.1", port))
        try:
            return it.recv(1 << 16)
        except TimeoutError:
            return None
