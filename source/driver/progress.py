"""What is done, where it takes long: a line on a terminal, or plain lines if they are asked for."""

from __future__ import annotations

import sys
import time
from types import FrameType, TracebackType

# Seconds before the line of a terminal is there, and between two of its forms.
PATIENCE = 2.0
STEP = 1.0
# Seconds between two plain lines of what still goes on.
REPEAT = 30.0
CLEAR = "\r\x1b[K"


class Progress:
    """While it is entered, it is said what is done and for how long."""

    # Whether plain lines are asked for. Else what is no terminal, as the log of a build, gets none.
    has_lines = False

    def __init__(self, doing: str) -> None:
        self.doing = doing
        self.is_seen = self.has_lines or (sys.stderr is not None and sys.stderr.isatty())
        self.start = time.monotonic()

    def __enter__(self) -> Progress:
        if self.is_seen:
            import signal

            first, step = (REPEAT, REPEAT) if self.has_lines else (PATIENCE, STEP)
            signal.signal(signal.SIGALRM, self.tell)
            signal.setitimer(signal.ITIMER_REAL, first, step)
        if self.has_lines:
            self.write(f"sparrow: {self.doing}\n")
        return self

    def __exit__(
        self,
        kind: type[BaseException] | None,
        error: BaseException | None,
        trace: TracebackType | None,
    ) -> None:
        if self.is_seen:
            import signal

            signal.setitimer(signal.ITIMER_REAL, 0)
            if not self.has_lines and time.monotonic() - self.start >= PATIENCE:
                self.write(CLEAR)

    def tell(self, number: int, frame: FrameType | None) -> None:
        """Writes a plain line, or the terminal's line anew."""
        said = f"sparrow: {self.doing}, {int(time.monotonic() - self.start)} s"
        self.write(f"{said}\n" if self.has_lines else f"{CLEAR}{said}")

    def write(self, text: str) -> None:
        """Writes to standard error, which may be gone or closed."""
        try:
            if sys.stderr is not None:
                sys.stderr.write(text)
                sys.stderr.flush()
        except (OSError, ValueError):
            self.is_seen = False
