"""What is measured of a server: each starts it, and answers figures."""
import re
import select
import threading
import time

from .clients import PATIENCE, Client

DUMPS = 7


def spread(times):
    """The times in which half of all are over, and 99 of 100."""
    times = sorted(times)
    return [times[len(times) // 2], times[len(times) * 99 // 100]]


def timed(act):
    began = time.perf_counter()
    act()
    return time.perf_counter() - began


def say(game, count):
    game.start()
    client = game.comes_in()
    for n in range(count // 10 + 1):
        client.says(f"warm {n}.")
    return spread([timed(lambda: client.says(f"n{n}.")) for n in range(count)])


def come(clients, count):
    """Reads until so many lines have come to each of these."""
    left = {client.socket: count - client.kept.count(b"\n") for client in clients}
    left = {socket: lines for socket, lines in left.items() if lines > 0}
    while left:
        ready = select.select(list(left), [], [], PATIENCE)[0]
        if not ready:
            raise OSError(f"{sum(left.values())} lines haven't come")
        for link in ready:
            came = link.recv(1 << 18)
            if not came or b"<Output Flushed>" in came:
                raise OSError("the connection ended" if not came else "lines were dropped")
            left[link] -= came.count(b"\n")
            if left[link] <= 0:
                del left[link]


def answered(writers, readers, count, heard):
    """The seconds until each of the writers, who send so many lines at once, is answered, and each reader has heard so many."""
    data = b"".join(b'"n%d.\r\n' % n for n in range(count - 1)) + b'"over.\r\n'

    def all_of_them():
        for client in writers:
            threading.Thread(target=client.socket.sendall, args=(data,), daemon=True).start()
        come(readers, heard)

    return timed(all_of_them)


def lines(game, count, workers=4):
    game.start(workers)
    _, clients = game.players(8)
    return [8 * count / answered(clients, clients, count, count)]


def hall(game):
    """A hundred in a room: one who talks, and the others."""
    game.start()
    keeper = game.comes_in()
    keeper.does("@pcreate Ann=secret")
    keeper.does("@pcreate Bob=secret")
    room = re.search(game.dug, keeper.does("@dig Hall"))[1]
    for name in ("Ann", "Bob"):
        keeper.does(f"@teleport *{name}=#{room}")
    others = [game.comes_in("Bob") for _ in range(99)]
    one = game.comes_in("Ann")

    def all_hear(text):
        one.send(f'"{text}')
        one.until(f'You say, "{text}')
        for client in others:
            client.until(f'Ann says, "{text}')

    all_hear("all are here.")
    return keeper, one, others, all_hear


def heard(game, count):
    _keeper, _one, _others, all_hear = hall(game)
    for n in range(count // 10):
        all_hear(f"warm {n}.")
    return spread([timed(lambda: all_hear(f"n{n}.")) for n in range(count)])


def delivered(game, count):
    """Lines a second that come to a hundred in a room, of one who sends so many at once."""
    _keeper, one, others, _all_hear = hall(game)
    return [100 * count / answered([one], [one, *others], count, count)]


def logins(game, count):
    game.start()
    game.comes_in()

    def once():
        client = Client(game.port)
        client.send(f"connect {game.keeper} potrzebie", '"in.')
        client.until('You say, "in."')
        client.send("QUIT")
        while client.socket.recv(1 << 16):
            pass
        client.socket.close()

    once()
    return [count / timed(lambda: [once() for _ in range(count)])]


def idle(game, seconds):
    game.start()
    keeper = game.comes_in()
    before = game.memory()
    began = game.processor()
    time.sleep(seconds)
    alone = (game.processor() - began) / seconds
    clients = [keeper] + [game.comes_in() for _ in range(255)]
    after = game.memory()
    began = game.processor()
    time.sleep(seconds)
    many = (game.processor() - began) / seconds
    assert len(clients) == 256
    return [before, after, alone * 100, many * 100]


def dump(game, objects):
    numbers = game.fill(objects)
    keeper, other = game.comes_in(), None
    keeper.does("@pcreate Ann=secret")
    room = re.search(game.dug, keeper.does("@dig Yard"))[1]
    keeper.does(f"@teleport *Ann=#{room}")
    other = game.comes_in("Ann")
    quiet, waits, took = [], [], []
    for turn in range(DUMPS):
        keeper.does("\r\n".join(f"@name #{number}=thing {turn} {number}" for number in numbers))
        quiet.append(max(timed(lambda: other.says(f"q{turn} {n}.")) for n in range(200)))
        during = []
        took.append(game.dump(keeper, lambda: during.append(timed(lambda: other.says(f"d{turn} {len(during)}.")))))
        waits.append(max(during))
    half = DUMPS // 2
    length = sorted(took)[half] if None not in took else None
    return [sorted(waits)[half], max(waits), sorted(quiet)[half], max(quiet), length]
