"""The link to the world behind the door."""
import asyncio
import socket

from .login import GREETING

# what is kept of a line that doesn't end; the world's own are shorter
MOST_LINE = 65536
# what the system keeps of what the world says, until the front reads it
MOST_UNREAD = 65536


class Away(Exception):
    """Why the world can't be reached: `down` or `silent`."""


class World:
    """A link that was greeted. The bytes of the world are lines that end with CR LF."""

    def __init__(self, reader, writer):
        self.reader, self.writer, self.part, self.last = reader, writer, b"", b""

    async def lines(self):
        """Lines that have come, at least one; None at the end."""
        while True:
            try:
                data = await self.reader.read(65536)
            except OSError:
                data = b""
            if not data:
                return None
            *found, self.part = (self.part + data).split(b"\r\n")
            if len(self.part) > MOST_LINE:
                found.append(self.part)
                self.part = b""
            if found:
                self.last = found[-1]
                return found

    async def send(self, line):
        self.writer.write(line + b"\r\n")
        await self.writer.drain()

    def close(self):
        self.writer.close()


async def reach(where, patience):
    """A link to the world, and the lines of its greeting. A world that is full lets a link wait, and doesn't greet it."""
    try:
        it = World(*await asyncio.wait_for(asyncio.open_connection(*where), patience))
        it.writer.get_extra_info("socket").setsockopt(socket.SOL_SOCKET, socket.SO_RCVBUF, MOST_UNREAD)
    except (OSError, asyncio.TimeoutError):
        raise Away("down") from None
    try:
        greeting = await asyncio.wait_for(it.lines(), patience)
        if greeting is None:
            raise Away("down")
        if not greeting[0].startswith(GREETING):
            raise Away("silent")
        return it, greeting
    except asyncio.TimeoutError:
        it.close()
        raise Away("silent") from None
    except Away:
        it.close()
        raise
