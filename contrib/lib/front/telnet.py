"""The telnet side of a door."""
import asyncio
import collections
import errno
import re

from .lines import Splitter

IAC, DONT, DO, WONT, WILL, SB, SE, AYT = 255, 254, 253, 252, 251, 250, 240, 246
REQUEST_OF_THE_WEB = re.compile(rb"(GET|HEAD|POST|PUT|DELETE|CONNECT|OPTIONS|TRACE|PATCH) \S+ HTTP/\d")
SECONDS_TO_CLOSE = 5


class Commands:
    """Takes telnet's own commands out of what comes. Each option is refused, once."""

    def __init__(self):
        self.kept, self.refused = b"", set()

    def take(self, data):
        """What isn't telnet's, and what is to be answered."""
        data, self.kept = self.kept + data, b""
        found, answers, at = [], [], 0
        while True:
            command = data.find(IAC, at)
            if command < 0:
                found.append(data[at:])
                break
            found.append(data[at:command])
            at = self.behind(data, command)
            if at is None:
                break
            answers.append(self.answer(data[command + 1], data[command + 2:at]))
        return b"".join(found), b"".join(answers)

    def behind(self, data, at):
        """Where the command ends that begins there. Of one that isn't whole the beginning is kept."""
        kind = data[at + 1] if at + 1 < len(data) else None
        if kind == SB:
            return self.behind_a_list(data, at + 2)
        end = at + (3 if kind is not None and kind >= WILL and kind < IAC else 2)
        if end <= len(data):
            return end
        self.kept = data[at:]
        return None

    def behind_a_list(self, data, at):
        """The end of what stands between SB and SE. Nothing of it is kept but that it is still open."""
        while True:
            at = data.find(IAC, at)
            if at < 0 or at + 1 == len(data):
                self.kept = bytes([IAC, SB]) + data[at:] if at >= 0 else bytes([IAC, SB])
                return None
            if data[at + 1] == SE:
                return at + 2
            at += 2

    def answer(self, kind, option):
        if kind == AYT:
            return b"[Yes]\r\n"
        if kind not in (WILL, DO) or (kind, option) in self.refused:
            return b""
        self.refused.add((kind, option))
        return bytes([IAC, DONT if kind == WILL else WONT]) + option


class TelnetSide:
    """Who came by telnet: lines that are typed, and lines that are shown."""

    def __init__(self, reader, writer, who, address, how):
        self.reader, self.writer, self.transport = reader, writer, writer.transport
        self.who, self.address, self.how = who, address, how
        self.commands, self.splitter, self.waiting = Commands(), Splitter(), collections.deque()
        self.is_first, self.left = True, "left"

    async def line(self):
        """The next line that is typed; None at the end, and `left` says why."""
        while not self.waiting:
            try:
                data = await self.reader.read(65536)
                if not data:
                    return None
                data, answers = self.commands.take(data)
                if answers:
                    self.writer.write(answers)
                    await self.writer.drain()
            except OSError as why:
                if why.errno in (errno.ETIMEDOUT, errno.EHOSTUNREACH):
                    self.left = "lost"
                return None
            self.waiting.extend(self.splitter.take(data))
        line = self.waiting.popleft()
        if self.is_first and REQUEST_OF_THE_WEB.match(line):
            # a page elsewhere may make a browser type lines here
            self.left = "http"
            return None
        self.is_first = False
        return line

    async def show(self, lines):
        self.writer.write(b"".join(line + b"\r\n" for line in lines))
        await self.writer.drain()

    async def say(self, text):
        await self.show([text.encode()])

    async def enter(self, name):
        """Nothing is told of it: the world's own lines do that."""

    async def close(self, again):
        """Ends the link. What comes still is read, so that what was said isn't lost by a reset."""
        try:
            if self.writer.can_write_eof():
                self.writer.write_eof()
                await asyncio.wait_for(self.drop_what_comes(), 1)
        except (OSError, asyncio.TimeoutError):
            pass
        self.writer.close()
        try:
            await asyncio.wait_for(self.writer.wait_closed(), SECONDS_TO_CLOSE)
        except (OSError, asyncio.TimeoutError):
            self.transport.abort()

    async def drop_what_comes(self):
        while await self.reader.read(65536):
            pass
