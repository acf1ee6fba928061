"""The front as a whole: its doors, its limits, and the world behind."""
import asyncio
import itertools
import signal

from muckkit.says import Refused

from . import log
from .doors import count
from .limits import Limits
from .web import Page

SECONDS_TO_PART = 10


class Front:
    """`world` is host and port; `login`, `keepalive` and `patience` are seconds."""

    def __init__(self, world, links, most, tries, login, keepalive, patience, title):
        self.world, self.login, self.keepalive, self.patience = world, login, keepalive, patience
        self.limits = Limits(links, most, tries)
        self.numbers, self.visits = itertools.count(1), set()
        self.page, self.certificate = Page(self, title), None

    async def serve(self, doors):
        """Until SIGTERM or Ctrl-C. SIGHUP reads the certificate again."""
        loop, stopped = asyncio.get_running_loop(), asyncio.Event()
        for one in (signal.SIGTERM, signal.SIGINT):
            loop.add_signal_handler(one, stopped.set)
        loop.add_signal_handler(signal.SIGHUP, self.renew)
        await self.page.begin()
        there = count()
        serving = [asyncio.ensure_future(door.serve(there)) for door in doors]
        for door in doors:
            door.tell()
        await asyncio.wait({asyncio.ensure_future(stopped.wait()), *serving}, return_when=asyncio.FIRST_COMPLETED)
        for one in serving:
            one.cancel()
        for door in doors:
            door.listener.close()
        await self.part(there)
        log.write("closes")
        for one in await asyncio.gather(*serving, return_exceptions=True):
            if not isinstance(one, asyncio.CancelledError):
                raise one

    def renew(self):
        if not self.certificate:
            return
        try:
            self.certificate.renew()
            log.write("renewed", certificate=self.certificate.files[0])
        except (Refused, OSError) as why:
            log.write("fault", certificate=self.certificate.files[0], cause=repr(str(why)))

    async def part(self, there):
        """Tells all who are there that the door closes, and waits for them a little."""
        for visit in list(self.visits):
            visit.finish("closing")
        end = asyncio.get_running_loop().time() + SECONDS_TO_PART
        while self.visits and asyncio.get_running_loop().time() < end:
            await asyncio.sleep(0.02)
        while there and asyncio.get_running_loop().time() < end - SECONDS_TO_PART + 3:
            await asyncio.sleep(0.02)
