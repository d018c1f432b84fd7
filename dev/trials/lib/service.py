"""A service manager that is played: what it is told by a program, with the moments."""

import socket
import threading
import time


class Manager(threading.Thread):
    """A service manager, as far as it is told something."""

    def __init__(self, name: str) -> None:
        super().__init__(daemon=True)
        self.name = name
        self.told: list[tuple[float, list[str]]] = []
        self.socket = socket.socket(socket.AF_UNIX, socket.SOCK_DGRAM)
        self.socket.bind(f"\0{name[1:]}" if name.startswith("@") else name)
        self.adds = {"NOTIFY_SOCKET": name, "WATCHDOG_USEC": "1000000"}
        self.start()

    def run(self) -> None:
        while True:
            self.told.append((time.monotonic(), self.socket.recv(4_096).decode().split("\n")))

    def times(self, line: str) -> list[float]:
        return [moment for moment, lines in list(self.told) if line in lines]
