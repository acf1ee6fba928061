"""The doors: where one listens, who is let in to speak telnet or HTTP, and the certificate."""
import asyncio
import collections
import errno
import socket
import ssl

from muckkit.says import Refused

from . import log
from .limits import counted, plain_address
from .telnet import TelnetSide
from .visit import Visit
from .web import SECONDS_TO_ASK
from .world import MOST_UNREAD

SECONDS_TO_SHAKE = 20
# connections that are no links yet, as those that fetch the page: of an address beyond four for each link, and of all beyond one for each
MORE = 8
MORE_OF_ALL = 256


class Certificate:
    """A certificate with its key, by the files that certbot writes: `fullchain.pem` and `privkey.pem`."""

    def __init__(self, chain, key):
        self.files = chain, key
        self.context = self.read()

    def read(self):
        context = ssl.SSLContext(ssl.PROTOCOL_TLS_SERVER)
        self.load(context)
        return context

    def load(self, context):
        for path in self.files:
            with open(path, "rb"):
                pass
        try:
            context.load_cert_chain(*self.files, password=lambda: b"")
        except (OSError, ValueError) as why:
            raise Refused(f"{self.files[0]} and {self.files[1]} aren't a certificate and its key: {getattr(why, 'reason', None) or why}") from None

    def renew(self):
        """Reads the files again, for those who come from now on; where they are wrong all stays as it was."""
        self.read()
        self.load(self.context)


def listening(host, port):
    """A socket on which one listens; without a host at all addresses of this machine."""
    try:
        if host is not None:
            family, _, _, _, where = socket.getaddrinfo(host, port, type=socket.SOCK_STREAM, flags=socket.AI_PASSIVE)[0]
            return socket.create_server(where[:2], family=family)
        if socket.has_dualstack_ipv6():
            try:
                return socket.create_server(("", port), family=socket.AF_INET6, dualstack_ipv6=True)
            except OSError as why:
                if why.errno not in (errno.EADDRNOTAVAIL, errno.EAFNOSUPPORT):
                    raise
        return socket.create_server(("", port))
    except OSError as why:
        raise Refused(f"port {port}{f' of {host}' if host else ''} can't be listened on: {why.strerror or why}") from None


def prepare(one, seconds):
    """Little waits to be sent to who doesn't read. An other end that has vanished is found within some three times the seconds, also where something waits to be sent to it."""
    one.setsockopt(socket.SOL_SOCKET, socket.SO_SNDBUF, MOST_UNREAD)
    one.setsockopt(socket.SOL_SOCKET, socket.SO_KEEPALIVE, 1)
    third = max(seconds // 3, 1)
    for name, value in (("TCP_KEEPIDLE", seconds), ("TCP_KEEPINTVL", third), ("TCP_KEEPCNT", 5), ("TCP_USER_TIMEOUT", 3000 * seconds)):
        if hasattr(socket, name):
            one.setsockopt(socket.IPPROTO_TCP, getattr(socket, name), value)


class Door:
    """One door. `how` is `telnet` or `web`, with `+tls` behind it where it has a certificate."""

    def __init__(self, front, kind, where, certificate):
        self.front, self.kind, self.certificate = front, kind, certificate
        self.how = kind + ("+tls" if certificate else "")
        self.listener = listening(*where)
        self.listener.setblocking(False)
        self.tls = {"ssl": certificate.context, "ssl_handshake_timeout": SECONDS_TO_SHAKE} if certificate else {}

    def tell(self):
        host, port = self.listener.getsockname()[:2]
        log.write("opens", how=self.how, at=host, port=port)

    async def serve(self, there):
        """Takes who comes; `there` counts the connections of each address, at all doors."""
        loop, tasks = asyncio.get_running_loop(), set()
        while True:
            try:
                one, where = await loop.sock_accept(self.listener)
            except ConnectionError:
                # it went before it was taken
                continue
            except OSError as why:
                # there is no descriptor left
                log.write("fault", how=self.how, cause=errno.errorcode.get(why.errno, "OSError"))
                await asyncio.sleep(1)
                continue
            task = loop.create_task(self.take(one, where[0], there))
            tasks.add(task)
            task.add_done_callback(tasks.discard)

    async def take(self, one, address, there):
        """One connection, from the beginning to its end."""
        who, address = counted(address), plain_address(address)
        if there[who] >= 4 * self.front.limits.links + MORE or sum(there.values()) >= self.front.limits.most + MORE_OF_ALL:
            log.write("refused", address=address, how=self.how, why="connections")
            one.close()
            return
        there[who] += 1
        try:
            prepare(one, self.front.keepalive)
            await (self.telnet if self.kind == "telnet" else self.web)(one, who, address)
        except OSError:
            # it went, or failed to shake hands
            one.close()
        finally:
            there[who] -= 1
            if not there[who]:
                del there[who]

    async def telnet(self, one, who, address):
        loop = asyncio.get_running_loop()
        reader = asyncio.StreamReader(loop=loop)
        protocol = asyncio.StreamReaderProtocol(reader, loop=loop)
        transport, _ = await loop.connect_accepted_socket(lambda: protocol, one, **self.tls)
        writer = asyncio.StreamWriter(transport, protocol, reader, loop)
        await Visit(self.front, TelnetSide(reader, writer, who, address, self.how)).run()

    async def web(self, one, who, address):
        loop = asyncio.get_running_loop()
        it = self.front.page.connection(who, address, self.how)
        transport, _ = await loop.connect_accepted_socket(lambda: it, one, **self.tls)
        await asyncio.wait({it.gone}, timeout=SECONDS_TO_ASK)
        if not it.gone.done() and not it.is_link:
            transport.abort()
        await it.gone


def count():
    """How many connections each address has."""
    return collections.Counter()
