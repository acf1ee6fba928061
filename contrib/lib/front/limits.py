"""What an address may: so many links, and so many wrong passwords a minute. Telnet and the page count together."""
import collections
import ipaddress
import time

MINUTE = 60


def plain_address(address):
    """An address as it is logged: one of IPv4 that a socket of IPv6 shows is written as what it is."""
    it = ipaddress.ip_address(address.partition("%")[0])
    return getattr(it, "ipv4_mapped", None) or it


def counted(address):
    """What is counted of an address: all of one of IPv4, and the first 64 bits of one of IPv6, for a household has all that begin so."""
    it = plain_address(address)
    return str(it) if it.version == 4 else str(ipaddress.IPv6Network((int(it) >> 64 << 64, 64)))


class Limits:
    """The links that there are, and the wrong passwords of the last minute. `who` is what `counted` gives."""

    def __init__(self, links, most, tries, clock=time.monotonic):
        self.links, self.most, self.tries, self.clock = links, most, tries, clock
        self.there = collections.Counter()
        self.tried = {}
        self.swept = clock()

    def come(self, who):
        """Takes a place; or why there is none."""
        if sum(self.there.values()) >= self.most:
            return "full"
        if self.there[who] >= self.links:
            return "links"
        self.there[who] += 1
        return None

    def go(self, who):
        self.there[who] -= 1
        if not self.there[who]:
            del self.there[who]

    def may_try(self, who):
        """Whether one more password may be tried; it counts as wrong until it is known."""
        self.sweep()
        if len(self.recent(who)) >= self.tries:
            return False
        self.wrong(who)
        return True

    def wrong(self, who):
        self.tried.setdefault(who, collections.deque()).append(self.clock())

    def right(self, who):
        """A password that was tried is right, and doesn't count."""
        if self.tried.get(who):
            self.tried[who].pop()

    def recent(self, who):
        """The times of the wrong passwords of the last minute."""
        times = self.tried.get(who, ())
        while times and times[0] <= self.clock() - MINUTE:
            times.popleft()
        return times

    def sweep(self):
        """Forgets addresses that have tried nothing for a minute."""
        if self.clock() < self.swept + MINUTE:
            return
        self.swept = self.clock()
        for who in list(self.tried):
            if not self.recent(who):
                del self.tried[who]
