"""What is known of a login from what is typed and what the world answers.

Until a link is in, one line goes to the world at a time, and the next one behind its answer. So each answer is that of one line, and nothing that a builder names a room can
make a link look as if it were in while it isn't: to a link that isn't in the world answers by four texts alone."""
import re

GREETING = b"Use: connect NAME PASSWORD"
WRONG = b"Either that player does not exist, or has a different password."
GOODBYE = b"Come back later!"
END_OF_WHO = re.compile(rb"\d+ connected\.")
# what may be a player's name: a password that stands in its place by mistake has to look like one to be logged
NAME = re.compile(rb"[!-<>-~]{1,80}")


def name_and_password(line):
    """The two parts of a line that logs in; no other line has them."""
    words = line.strip(b" ").split(None, 2)
    return (words[1], words[2]) if len(words) == 3 and words[0].lower() == b"connect" else None


class Login:
    """The state of one link. `asked` is the word of the line that waits for its answer."""

    def __init__(self):
        self.is_in, self.asked, self.tried, self.counted = False, None, None, False

    def ask(self, line, counted):
        """A line goes to the world; `counted` says that it counts as a wrong password until it is known."""
        parts = name_and_password(line)
        if parts:
            self.tried = parts[0]
        self.asked, self.counted = line.strip(b" ").lower(), counted

    def hear(self, line):
        """A line of the world, and what it says: `in`, `wrong` or None."""
        if self.asked is None:
            # who isn't in is told nothing unasked; so the answer to its password was a room that is named like a refusal
            self.is_in = self.tried is not None
            return "in" if self.is_in else None
        if self.asked == b"who" and not line.startswith(GREETING):
            if END_OF_WHO.fullmatch(line):
                self.asked = None
            return None
        asked, self.asked = self.asked, None
        if line.startswith(GREETING) or (asked == b"quit" and line == GOODBYE):
            return None
        if line == WRONG:
            return "wrong"
        self.is_in = True
        return "in"

    @property
    def name(self):
        """The name that was tried last, for the log."""
        return self.tried.decode() if self.tried and NAME.fullmatch(self.tried) else "-"
