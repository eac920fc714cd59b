"""Standard input, output and error that don't block. On these a read or a write may come back with nothing done, which neither the
program nor the tools expect."""

import fcntl
import os
import stat
from contextlib import suppress

PORTS = (0, 1, 2)


def let_block() -> None:
    """Has reads and writes of all three wait until something can be done."""
    for port in PORTS:
        # One that is closed stays so.
        with suppress(OSError):
            if not os.get_blocking(port):
                let_one_block(port)


def let_one_block(port: int) -> None:
    """Puts the same pipe, opened once more, in the place of a port, so that who shares the port sees nothing of it. What can't be
    opened once more, as a socket or a terminal, is changed itself."""
    if stat.S_ISFIFO(os.fstat(port).st_mode):
        with suppress(OSError):
            direction = fcntl.fcntl(port, fcntl.F_GETFL) & os.O_ACCMODE
            again = os.open(f"/proc/self/fd/{port}", direction | os.O_NONBLOCK)
            os.set_blocking(again, True)
            os.dup2(again, port)
            os.close(again)
            return
    os.set_blocking(port, True)
