"""The web side of a door: the files of the page, and its link by WebSocket."""
import asyncio
import collections
import html
import json
import logging
import os
import re

from aiohttp import WSMsgType, web

from .lines import Splitter
from .visit import Visit

FILES = os.path.join(os.path.dirname(os.path.realpath(__file__)), "page")
TYPES = {"index.html": "text/html", "page.js": "text/javascript", "page.css": "text/css"}
HOST = re.compile(r"[A-Za-z0-9._:\[\]-]{1,255}")
# a message of the page is some lines
MOST_MESSAGE = 65536
# the page comes again by itself behind all codes but this one
STAY_AWAY = 4000
COME_AGAIN = 4001
# a connection that becomes no link in so many seconds is closed
SECONDS_TO_ASK = 60
SECONDS_TO_CLOSE = 5

# what hostile requests do wrong is no news; faults of the front itself have a line of the log
logging.getLogger("aiohttp").addHandler(logging.NullHandler())
logging.getLogger("aiohttp").propagate = False


class Connection(web.RequestHandler):
    """A connection to the web door, which knows where it is from, and tells when it has gone."""

    __slots__ = ("who", "address", "how", "is_link", "gone")

    def come(self, who, address, how):
        self.who, self.address, self.how, self.is_link = who, address, how, False
        self.gone = asyncio.get_running_loop().create_future()
        return self

    def connection_lost(self, fault):
        super().connection_lost(fault)
        if not self.gone.done():
            self.gone.set_result(None)


class WebSide:
    """Who came by the page. A message to it is an object of JSON with `lines` of the world, a sentence of the `door`, or the name of who is `in`; one from it is lines of text."""

    def __init__(self, socket, connection):
        self.socket, self.transport = socket, connection.transport
        self.who, self.address, self.how = connection.who, connection.address, connection.how
        self.waiting, self.left = collections.deque(), "left"

    async def line(self):
        while not self.waiting:
            message = await self.socket.receive()
            if message.type == WSMsgType.TEXT:
                self.waiting.extend(Splitter().take(message.data.encode() + b"\n"))
            elif message.type != WSMsgType.BINARY:
                if isinstance(self.socket.exception(), asyncio.TimeoutError):
                    self.left = "lost"
                return None
        return self.waiting.popleft()

    async def tell(self, **parts):
        await self.socket.send_str(json.dumps(parts))

    async def show(self, lines):
        await self.tell(lines=[line.decode("ascii", "replace") for line in lines])

    async def say(self, text):
        await self.tell(door=text)

    async def enter(self, name):
        await self.tell(**{"in": name})

    async def close(self, again):
        try:
            await asyncio.wait_for(self.socket.close(code=COME_AGAIN if again else STAY_AWAY), SECONDS_TO_CLOSE)
        except asyncio.TimeoutError:
            self.transport.abort()


class Page:
    """What the web door answers."""

    def __init__(self, front, title):
        self.front, self.files = front, {}
        for name in TYPES:
            with open(os.path.join(FILES, name), encoding="utf-8") as file:
                self.files[name] = file.read()
        self.files["index.html"] = self.files["index.html"].replace("TITLE", html.escape(title))
        self.app = web.Application()
        self.app.add_routes([web.get("/", self.file), web.get("/{name:page\\.(?:js|css)}", self.file), web.get("/link", self.link)])
        self.app.on_response_prepare.append(self.head)

    async def begin(self):
        self.runner = web.AppRunner(self.app, access_log=None)
        await self.runner.setup()

    def connection(self, who, address, how):
        it = Connection(self.runner.server, loop=asyncio.get_running_loop(), access_log=None, keepalive_timeout=10, tcp_keepalive=False)
        return it.come(who, address, how)

    async def head(self, request, response):
        """The page takes nothing from elsewhere, and stands in no other page."""
        host = request.headers.get("Host", "")
        # (some browsers don't take 'self' for the address of a WebSocket)
        link = f" ws://{host} wss://{host}" if HOST.fullmatch(host) else ""
        response.headers.update({
            "Server": "muckd-front", "X-Content-Type-Options": "nosniff", "Referrer-Policy": "no-referrer", "Cache-Control": "no-cache",
            "Content-Security-Policy": f"default-src 'none'; script-src 'self'; style-src 'self'; connect-src 'self'{link}; base-uri 'none'; form-action 'none'; frame-ancestors 'none'"})

    async def file(self, request):
        name = request.match_info.get("name", "index.html")
        return web.Response(text=self.files[name], content_type=TYPES[name], charset="utf-8")

    async def link(self, request):
        # (aiohttp's own `host` looks up a name where none is said, and all would wait for that)
        host, origin = request.headers.get("Host", ""), request.headers.get("Origin")
        if origin is not None and origin not in (f"http://{host}", f"https://{host}"):
            raise web.HTTPForbidden(text="A page from elsewhere has no link here.\n")
        socket = web.WebSocketResponse(heartbeat=self.front.keepalive, max_msg_size=MOST_MESSAGE, compress=False, timeout=2)
        if not socket.can_prepare(request):
            raise web.HTTPBadRequest(text="Here the page has its link, by WebSocket.\n")
        request.protocol.is_link = True
        await socket.prepare(request)
        await Visit(self.front, WebSide(socket, request.protocol)).run()
        return socket
