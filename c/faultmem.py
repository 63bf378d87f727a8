"""The fault memory for Python, over ctypes: the calls of faultmem.h with the same names and ranges.

    with Memory(library, "event 0 dtc 123456\\n") as memory:
        memory.cycle(0)
        print(memory.report(0, FAILED))          # fail 0 -> taken

A call that writes hands out operations. `flash`, if it is given, is a bytearray on which they are carried out, and reported as done; without
it they are done on the copy that the handle has. A status that is not OK is raised as `Refused`.
"""

from __future__ import annotations

import ctypes
from pathlib import Path
from types import TracebackType

PASSED, FAILED, PREPASSED, PREFAILED = range(4)
STATUSES = [
    "ok", "null", "length", "range", "config", "memory", "pending", "dark", "refused", "nothing", "flash", "text",
]
STAGES = ["up", "pending", "dark", "refused"]
PROGRAM, ERASE = 1, 2


class Refused(Exception):
    """A call gave another status than OK."""

    def __init__(self, status: int) -> None:
        super().__init__(STATUSES[status])
        self.status = STATUSES[status]


class Handle(ctypes.Structure):
    """struct faultmem"""

    _fields_ = [("at", ctypes.c_void_p)]


class Operation(ctypes.Structure):
    """struct faultmem_operation"""

    _fields_ = [
        ("kind", ctypes.c_uint8),
        ("sector", ctypes.c_uint8),
        ("page", ctypes.c_uint16),
        ("bytes", ctypes.c_uint8 * 32),
    ]


class Left(ctypes.Structure):
    """struct faultmem_left"""

    _fields_ = [
        ("line", ctypes.c_size_t),
        ("response", ctypes.c_size_t),
        ("operations", ctypes.c_size_t),
        ("image", ctypes.c_size_t),
        ("generation", ctypes.c_uint32),
        ("stage", ctypes.c_uint32),
    ]


def carry_out(flash: bytearray, operation: Operation) -> None:
    """Carries an operation out on a flash."""
    size = len(flash) // 2
    if operation.kind == PROGRAM:
        place = operation.sector * size + 32 * operation.page
        flash[place : place + 32] = bytes(operation.bytes)
    else:
        place = operation.sector * size
        flash[place : place + size] = b"\xff" * size


class Memory:
    """An open fault memory."""

    def __init__(self, library: Path, text: str, flash: bytearray | None = None) -> None:
        self.library = ctypes.CDLL(str(library))
        self.handle = Handle()
        self.flash = flash
        data = text.encode("ascii")
        given = None if flash is None else bytes(flash)
        status = self.library.faultmem_open(
            ctypes.byref(self.handle), data, ctypes.c_size_t(len(data)), given, ctypes.c_size_t(len(given or b""))
        )
        if self.handle.at is None:
            raise Refused(status)
        self.begins = self._line()
        self.finish()

    def __enter__(self) -> Memory:
        return self

    def __exit__(
        self, kind: type[BaseException] | None, value: BaseException | None, trace: TracebackType | None
    ) -> None:
        self.close()

    def close(self) -> None:
        """Closes the handle; a second time does nothing."""
        self.library.faultmem_close(ctypes.byref(self.handle))

    def _call(self, name: str, *words: object) -> None:
        """Makes a call, and raises its status."""
        status = getattr(self.library, f"faultmem_{name}")(ctypes.byref(self.handle), *words)
        if status != 0:
            raise Refused(status)

    def _line(self) -> str:
        text = ctypes.create_string_buffer(4096)
        self._call("line", text, ctypes.c_size_t(len(text)))
        return text.value.decode("ascii").removesuffix("\n")

    def _step(self, name: str, *words: object) -> str:
        self._call(name, *words)
        line = self._line()
        self.finish()
        return line

    def left(self) -> Left:
        """What the last call left."""
        left = Left()
        self._call("left", ctypes.byref(left))
        return left

    def operations(self) -> list[Operation]:
        """The operations that wait."""
        operations = []
        for number in range(self.left().operations):
            operation = Operation()
            self._call("operation", ctypes.c_size_t(number), ctypes.byref(operation))
            operations.append(operation)
        return operations

    def finish(self) -> None:
        """Carries out the operations that wait, and says so."""
        operations = self.operations()
        if self.flash is not None:
            for operation in operations:
                carry_out(self.flash, operation)
        if operations:
            self._call("done")

    def power_up(self, flash: bytearray | None = None) -> str:
        """Makes the power come; the line with which the life begins."""
        if flash is not None:
            self.flash = flash
        given = None if self.flash is None else bytes(self.flash)
        status = self.library.faultmem_power_up(
            ctypes.byref(self.handle), given, ctypes.c_size_t(len(given or b""))
        )
        if status not in (0, 7, 8):
            raise Refused(status)
        line = self._line()
        self.finish()
        return line

    def report(self, event: int, report: int) -> str:
        """A monitor reports."""
        return self._step("report", ctypes.c_uint32(event), ctypes.c_uint32(report))

    def tick(self, ticks: int) -> str:
        """Time passes."""
        return self._step("tick", ctypes.c_uint32(ticks))

    def cycle(self, cycle: int) -> str:
        """An operation cycle ends and starts again."""
        return self._step("cycle", ctypes.c_uint32(cycle))

    def signal(self, index: int, value: int) -> str:
        """A signal has a new value."""
        return self._step("signal", ctypes.c_uint32(index), ctypes.c_uint32(value))

    def enable(self, condition: int, is_fulfilled: bool) -> str:
        """An enable condition is fulfilled from now on, or is not."""
        return self._step("enable", ctypes.c_uint32(condition), ctypes.c_uint32(is_fulfilled))

    def show(self, event: int) -> str:
        """What is known of an event."""
        return self._step("show", ctypes.c_uint32(event))

    def request(self, tester: int, data: bytes) -> bytes | None:
        """Sends a request: the response, or None where it is silent."""
        self._call("request", ctypes.c_uint32(tester), data, ctypes.c_size_t(len(data)))
        out = ctypes.create_string_buffer(1040)
        length = ctypes.c_size_t()
        self._call("response", out, ctypes.c_size_t(1040), ctypes.byref(length))
        return out.raw[: length.value] or None

    def post(self, is_urgent: bool, block: int, data: bytes) -> str:
        """Posts a write job."""
        return self._step("post", ctypes.c_uint32(is_urgent), ctypes.c_uint32(block), data, ctypes.c_size_t(len(data)))

    def ask(self, block: int) -> str:
        """What became of the last job of a block."""
        return self._step("ask", ctypes.c_uint32(block))

    def save(self) -> str:
        """Saves the durable state."""
        return self._step("save")

    def drain(self) -> str:
        """Writes the jobs that wait."""
        return self._step("drain")

    def get(self, block: int) -> str:
        """Reads an application block."""
        return self._step("get", ctypes.c_uint32(block))

    def put(self, block: int, data: bytes) -> None:
        """Writes an application block at once."""
        self._call("put", ctypes.c_uint32(block), data, ctypes.c_size_t(len(data)))
        self.finish()

    def line(self) -> str:
        """The line of the last call."""
        return self._line()

    def image(self) -> bytes:
        """The image that the handle has."""
        size = self.left().image
        out = ctypes.create_string_buffer(size)
        length = ctypes.c_size_t()
        self._call("image", out, ctypes.c_size_t(size), ctypes.byref(length))
        return out.raw

    def make(self, line: str) -> str:
        """Makes the step of a script's line by its call: its line, or that of the next life for `power`."""
        words = line.split()
        numbers = [int(word) if word.isdigit() else 0 for word in words]
        match words[0]:
            case "pass" | "fail" | "prepass" | "prefail":
                return self.report(numbers[1], ["pass", "fail", "prepass", "prefail"].index(words[0]))
            case "sig":
                return self.signal(numbers[1], numbers[2])
            case "enable":
                return self.enable(numbers[1], bool(numbers[2]))
            case "tick" | "cycle" | "show" | "ask" | "get":
                return str(getattr(self, words[0])(numbers[1]))
            case "save" | "drain":
                return str(getattr(self, words[0])())
            case "post" | "urge":
                return self.post(words[0] == "urge", numbers[1], bytes.fromhex("".join(words[2:])))
            case "t":
                self.request("ABCD".index(words[1]), bytes.fromhex("".join(words[2:])))
                return self._line()
            case "power":
                return self.power_up()
        raise ValueError(line)
