"""What bytes of ISO 14229-1 mean in words: status bits, negative codes, DTCs, answers."""

from __future__ import annotations

import re

# The bits of a status byte, bit 0 first: their names in ISO 14229-1.
BITS = (
    "testFailed",
    "testFailedThisOperationCycle",
    "pendingDTC",
    "confirmedDTC",
    "testNotCompletedSinceLastClear",
    "testFailedSinceLastClear",
    "testNotCompletedThisOperationCycle",
    "warningIndicatorRequested",
)
NEGATIVE_CODES = {
    0x11: "serviceNotSupported",
    0x12: "subFunctionNotSupported",
    0x13: "incorrectMessageLengthOrInvalidFormat",
    0x31: "requestOutOfRange",
    0x7F: "serviceNotSupportedInActiveSession",
}
# The letters of SAE J2012, by the two highest bits of a DTC.
SYSTEMS = "PCBU"
J2012 = re.compile(r"([PCBU])([0-3])([0-9A-F]{3})-([0-9A-F]{2})", re.IGNORECASE)
HEX = re.compile(r"[0-9A-F]{6}", re.IGNORECASE)
# Reports of service 19 whose answer lists DTCs with their status from this byte on.
LISTS = {0x02: 3, 0x0A: 3, 0x0B: 3, 0x0C: 3, 0x0D: 3, 0x0E: 3}


def hex_of(data: bytes) -> str:
    """Bytes as a report has them: `59 02 FF`."""
    return data.hex(" ").upper()


def status_in_words(status: int) -> str:
    """The names of the bits that are set; `no bit` if none is."""
    return ", ".join(name for bit, name in enumerate(BITS) if status >> bit & 1) or "no bit"


def j2012_of(dtc: int) -> str:
    """A DTC of three bytes in the spelling of SAE J2012: 012300 is P0123-00."""
    system, digit = SYSTEMS[dtc >> 22], dtc >> 20 & 3
    return f"{system}{digit}{dtc >> 8 & 0xFFF:03X}-{dtc & 0xFF:02X}"


def dtc_of(text: str) -> int | None:
    """A DTC that is written as P0123-00 or as 012300; none if the text is neither."""
    match = J2012.fullmatch(text)
    if match:
        system, digit, code, failure = match.groups()
        high = SYSTEMS.index(system.upper()) << 2 | int(digit)
        return high << 20 | int(code, 16) << 8 | int(failure, 16)
    return int(text, 16) if HEX.fullmatch(text) else None


def statuses_in_words(listed: bytes) -> list[str]:
    """A line for each DTC of a list of three bytes and a status each."""
    rows = [listed[at : at + 4] for at in range(0, len(listed) - 3, 4)]
    return [
        f"{j2012_of(int.from_bytes(row[:3], 'big'))} {row[3]:02X}: {status_in_words(row[3])}"
        for row in rows
    ]


def answer_in_words(answer: str) -> list[str]:
    """What the answer to a step means, as lines for a reader; none where it speaks for itself."""
    words = answer.split()
    if words[:1] == ["status"]:
        return [f"{words[1]}: {status_in_words(int(words[1], 16))}"]
    if not re.fullmatch(r"[0-9A-F]{2}( [0-9A-F]{2})+", answer):
        return []
    data = bytes.fromhex(answer)
    if data[0] == 0x7F and len(data) == 3:
        return [
            f"service {data[1]:02X}: {NEGATIVE_CODES.get(data[2], 'another negative response')}"
        ]
    if data[0] == 0x59 and data[1] in LISTS:
        return statuses_in_words(data[LISTS[data[1]] :])
    if data[0] == 0x59 and data[1] in (0x04, 0x06) and len(data) >= 6:
        return statuses_in_words(data[2:6])
    return []
