#!/usr/bin/env python3
"""A client of the tests, made of scapy. It prints JSON.

    scapy_client.py ask PORT     asks each line of standard input, bytes, by UDS_DoIPSocket
    scapy_client.py scan PORT    scans by UDS_Scanner
"""

from __future__ import annotations

import json
import sys

from scapy.contrib.automotive.doip import UDS_DoIPSocket
from scapy.contrib.automotive.uds import UDS
from scapy.contrib.automotive.uds_scan import (
    UDS_DSCEnumerator,
    UDS_RDBIEnumerator,
    UDS_Scanner,
    UDS_ServiceEnumerator,
)

SECONDS = 5
SERVICES = [*range(0x10, 0x40), *range(0x83, 0x89)]
RESET = bytes.fromhex("1101")


def connected(port: int, source: int = 0x0E80) -> UDS_DoIPSocket:
    """Returns a socket whose routing is activated."""
    return UDS_DoIPSocket("127.0.0.1", port=port, source_address=source)


def asked(client: UDS_DoIPSocket, data: bytes) -> str | None:
    """Returns the answer to a request, in hexadecimal digits; none if none came."""
    answer = client.sr1(UDS(data), timeout=SECONDS, verbose=False)
    return None if answer is None else bytes(answer).hex()


def ask(port: int) -> list[str | None]:
    """Returns the answers to the requests of standard input."""
    client = connected(port)
    try:
        return [asked(client, bytes.fromhex(line)) for line in sys.stdin]
    finally:
        client.close()


def scan(port: int) -> dict[str, object]:
    """Returns what the scanner asked in which state, and what was answered."""

    def reset() -> None:
        # Another tester, as the scanner's socket is still open.
        client = connected(port, 0x0E81)
        asked(client, RESET)
        client.close()

    cases = {
        UDS_ServiceEnumerator: {"scan_range": SERVICES},
        UDS_DSCEnumerator: {
            "scan_range": range(2, 8),
            "delay_state_change": 0,
            "overwrite_timeout": False,
        },
        UDS_RDBIEnumerator: {"scan_range": range(0xF18E, 0xF192)},
    }
    words = {f"{case.__name__}_kwargs": {"timeout": SECONDS, **it} for case, it in cases.items()}
    scanner = UDS_Scanner(
        connected(port),
        reset_handler=reset,
        reconnect_handler=lambda: connected(port),
        test_cases=list(cases),
        **words,
    )
    scanner.scan(timeout=100)
    found = {}
    for case in scanner.configuration.test_cases:
        found[type(case).__name__] = [
            [str(it.state), bytes(it.req).hex(), None if it.resp is None else bytes(it.resp).hex()]
            for it in case.results
        ]
    return {"completed": scanner.scan_completed, "found": found}


if __name__ == "__main__":
    print(json.dumps({"ask": ask, "scan": scan}[sys.argv[1]](int(sys.argv[2]))))
