"""One who comes by a door, from the coming to the going."""
import asyncio

from . import log
from .lines import as_the_world_takes_it
from .login import GOODBYE, Login, name_and_password
from .world import Away, reach

# who doesn't read what is shown for so many seconds goes
UNREAD = 300
SAID = {
    "links": "There are too many connections from your address. Close one, and come again.",
    "full": "The world is full. Please try again later.",
    "down": "The world is down. Please try again later.",
    "silent": "The world is full, or busy: it doesn't answer. Please try again later.",
    "gone": "The world has closed the connection.",
    "login": "You were at the login screen for too long. Please come again.",
    "tries": "Too many wrong passwords came from your address. Wait a minute, and come again.",
    "closing": "The door closes. Please come again in a minute.",
    "http": "This door is for telnet.",
    "fault": "Something went wrong at the door. Please come again.",
}
# behind these the page comes again by itself
AGAIN = ("full", "down", "silent", "gone", "closing", "fault")
TOO_LONG = "[The line was too long, and its end is cut off.]"


class Visit:
    """`side` is a telnet or web side; `front` has the limits, the world's place and the times."""

    def __init__(self, front, side):
        self.front, self.side, self.number = front, side, next(front.numbers)
        self.login, self.answered, self.timer = Login(), asyncio.Event(), None
        self.end = asyncio.get_running_loop().create_future()

    def finish(self, why):
        """Ends the visit, from elsewhere."""
        if not self.end.done():
            self.end.set_result(why)

    def log(self, what, **parts):
        log.write(what, address=self.side.address, how=self.side.how, link=self.number, **parts)

    async def run(self):
        why = self.front.limits.come(self.side.who)
        if why:
            self.log("refused", why=why)
            await self.part(why)
            return
        self.front.visits.add(self)
        self.log("comes")
        try:
            why = await self.stay()
        except Exception as fault:
            why = "fault"
            log.write("fault", link=self.number, cause=type(fault).__name__)
        finally:
            self.front.limits.go(self.side.who)
            self.front.visits.discard(self)
        self.log("goes", name=self.login.name if self.login.is_in else None, why=why)
        await self.part(why)

    async def stay(self):
        """Carries lines both ways until one end goes, and says why."""
        self.timer = asyncio.get_running_loop().call_later(self.front.login, self.finish, "login")
        tasks, world = [], None
        try:
            world, greeting = await reach(self.front.world, self.front.patience)
            await self.side.show(greeting)
            tasks = [asyncio.ensure_future(self.outward(world)), asyncio.ensure_future(self.inward(world))]
            await asyncio.wait({self.end, *tasks}, return_when=asyncio.FIRST_COMPLETED)
            return next(one.result() for one in (tasks[0], self.end, tasks[1]) if one.done())
        except Away as why:
            return str(why)
        except OSError:
            return "left"
        finally:
            self.timer.cancel()
            for one in tasks:
                one.cancel()
            await asyncio.gather(*tasks, return_exceptions=True)
            if world:
                world.close()

    async def inward(self, world):
        """What is typed goes to the world; until the link is in, line by line."""
        while True:
            raw = await self.side.line()
            if raw is None:
                return self.side.left
            line, is_whole = as_the_world_takes_it(raw)
            if not is_whole:
                await self.side.say(TOO_LONG)
            if not self.login.is_in and not self.ask(line):
                return "tries"
            try:
                await world.send(line)
            except OSError:
                return "gone"
            if not self.login.is_in:
                await self.answered.wait()

    def ask(self, line):
        """Notes a line of the login screen; whether it may go to the world."""
        is_try = name_and_password(line) is not None
        if is_try and not self.front.limits.may_try(self.side.who):
            return False
        self.answered.clear()
        self.login.ask(line, is_try)
        return True

    async def outward(self, world):
        """What the world says is shown."""
        while True:
            lines = await world.lines()
            if lines is None:
                return "quit" if world.last == GOODBYE else "gone"
            if not self.login.is_in and self.hear(lines):
                await self.side.enter(self.login.name)
            try:
                await asyncio.wait_for(self.side.show(lines), UNREAD)
            except asyncio.TimeoutError:
                return "unread"
            except OSError:
                return "left"

    def hear(self, lines):
        """Looks for the answers of the login screen; whether the link is in now."""
        for line in lines:
            if self.login.is_in:
                break
            heard = self.login.hear(line)
            if heard == "wrong":
                if not self.login.counted:
                    self.front.limits.wrong(self.side.who)
                self.log("fails", name=self.login.name)
            elif heard == "in":
                if self.login.counted:
                    self.front.limits.right(self.side.who)
                self.timer.cancel()
                self.log("in", name=self.login.name)
            if self.login.asked is None:
                self.answered.set()
        return self.login.is_in

    async def part(self, why):
        """Says why it ends, and closes."""
        try:
            if why in SAID:
                await asyncio.wait_for(self.side.say(SAID[why]), 5)
            await self.side.close(why in AGAIN)
        except (OSError, asyncio.TimeoutError):
            self.side.transport.abort()
