"""A WebSocket (RFC 6455) of this machine: sends texts, and reads those that come."""
import base64
import os
import socket
import struct

from .compare import Different

TEXT, LAST, MASKED = 1, 0x80, 0x80
# what a frame is that isn't a part of a message
CONTROL = 8


class WebSocket:
    def __init__(self, port: int, path: str, longest: float) -> None:
        self.socket = socket.create_connection(("127.0.0.1", port), longest)
        self.stream = self.socket.makefile("rb")
        key = base64.b64encode(os.urandom(16)).decode()
        lines = [f"GET {path} HTTP/1.1", f"Host: 127.0.0.1:{port}", "Upgrade: websocket", "Connection: Upgrade",
                 f"Sec-WebSocket-Key: {key}", "Sec-WebSocket-Version: 13"]
        self.socket.sendall("".join(f"{it}\r\n" for it in [*lines, ""]).encode())
        head = [*iter(lambda: self.stream.readline().strip(), b"")]
        if not head or head[0].split()[1:2] != [b"101"]:
            raise Different(f"there is no WebSocket at {port}: {head}")

    def close(self) -> None:
        self.stream.close()
        self.socket.close()

    def send(self, text: str) -> None:
        raw, mask = text.encode(), os.urandom(4)
        if len(raw) < 126:
            size = struct.pack(">B", MASKED | len(raw))
        elif len(raw) < 1 << 16:
            size = struct.pack(">BH", MASKED | 126, len(raw))
        else:
            size = struct.pack(">BQ", MASKED | 127, len(raw))
        masked = bytes(it ^ mask[place % 4] for place, it in enumerate(raw))
        self.socket.sendall(bytes([LAST | TEXT]) + size + mask + masked)

    def next(self) -> str:
        """Returns the next message, of however many frames."""
        message = b""
        while True:
            first, size = self.read(2)
            if size >= 126:
                size = int.from_bytes(self.read(2 if size == 126 else 8), "big")
            part = self.read(size)
            if first & CONTROL:
                continue
            message += part
            if first & LAST:
                return message.decode()

    def read(self, count: int) -> bytes:
        found = self.stream.read(count)
        if len(found) < count:
            raise Different("the WebSocket is closed")
        return found
