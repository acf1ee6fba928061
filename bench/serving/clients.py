"""A player's connection to a server of this machine."""
import socket
import time

PATIENCE = 120


def free_port():
    with socket.socket() as probe:
        probe.bind(("127.0.0.1", 0))
        return probe.getsockname()[1]


class Client:
    """A connection; what comes before a line that is awaited is skipped."""

    def __init__(self, port):
        until = time.monotonic() + PATIENCE
        while True:
            try:
                self.socket = socket.create_connection(("127.0.0.1", port), timeout=PATIENCE)
                break
            except ConnectionRefusedError:
                if time.monotonic() > until:
                    raise
                time.sleep(0.02)
        self.socket.setsockopt(socket.IPPROTO_TCP, socket.TCP_NODELAY, 1)
        self.kept = b""

    def send(self, *lines):
        self.socket.sendall(b"".join(line.encode() + b"\r\n" for line in lines))

    def until(self, mark):
        """What came up to a text, and the rest of its line."""
        mark = mark.encode()
        while (at := self.kept.find(mark)) < 0 or (end := self.kept.find(b"\n", at)) < 0:
            more = self.socket.recv(1 << 18)
            if not more:
                raise OSError(f"the connection ended before {mark!r}")
            self.kept += more
        came, self.kept = self.kept[:end + 1], self.kept[end + 1:]
        return came.decode("latin-1")

    def says(self, text):
        self.send(f'"{text}')
        return self.until(f'You say, "{text}"')

    def does(self, line):
        """What comes of a line."""
        self.send(line, '"done.')
        return self.until('You say, "done."')
