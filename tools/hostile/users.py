"""Two users: the calls are made by NOBODY, and OTHER works in a process of their own, with the rights that this user has."""

import contextlib
import os
import signal

from hostile.bench import OTHER, PAIR, PAIR_MOVED

# How often the two race.
TURNS = 40
# A text that only its owner may read, and the text of the other user's files.
SECRET, FOREIGN = "a key that only its owner may read\n", "a file of another user\n"


def become(user):
    """Gives the rights of the process up for those of a user."""
    os.setgroups([])
    os.setgid(user)
    os.setuid(user)


def done_by_other(act, *arguments):
    """Whether the other user can do something: whether it ends, and gives what is true."""
    child = os.fork()
    if not child:
        status = 1
        try:
            become(OTHER)
            status = not act(*arguments)
        finally:
            os._exit(status)
    return os.waitstatus_to_exitcode(os.waitpid(child, 0)[1]) == 0


class Beside:
    """The other user, who tries something again and again beside a call, until it is done."""

    def __init__(self, act, *arguments):
        self.act, self.arguments, self.is_done = act, arguments, False

    def __enter__(self):
        script = os.getpid()
        self.child = os.fork()
        if not self.child:
            try:
                become(OTHER)
                while os.getppid() == script:
                    with contextlib.suppress(OSError):
                        if self.act(*self.arguments):
                            os._exit(0)
            finally:
                os._exit(1)
        return self

    def __exit__(self, *_):
        os.kill(self.child, signal.SIGKILL)
        self.is_done = os.waitstatus_to_exitcode(os.waitpid(self.child, 0)[1]) == 0


def plain(at):
    """The texts at the paths that pages have before and after the moves."""
    return {path: text for path, text in at.texts().items() if path in {*PAIR, *PAIR_MOVED}}
