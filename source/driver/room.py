"""The temporary folder of a run."""

from __future__ import annotations

import os

from .failure import NOT_RUN, USAGE, Failure


class Room:
    """A folder of this run alone, which goes when the run ends."""

    def __init__(self) -> None:
        parent = os.environ.get("TMPDIR") or "/tmp"
        self.folder = os.path.join(os.path.abspath(parent), f"sparrow.{os.urandom(8).hex()}")
        self.texts: list[str] = []
        # What is in the texts without copies, where they have some or were looked at for them.
        self.uncopied: list[str] = []
        # The places of functions that the system calls by itself.
        self.by_itself: list[str] = []

    def __enter__(self) -> Room:
        try:
            os.mkdir(self.folder, 0o700)
        except OSError as error:
            raise Failure(NOT_RUN, "no temporary folder can be made") from error
        return self

    def __exit__(self, *_: object) -> None:
        try:
            for name in os.listdir(self.folder):
                os.unlink(self.path(name))
            os.rmdir(self.folder)
        except OSError:
            pass

    def path(self, name: str) -> str:
        """The path of a file of that name."""
        return os.path.join(self.folder, name)

    def place_for(self, source: str) -> str:
        """The place of the next source's text, which tells its number and name."""
        base = os.path.basename(source)
        stem = base[:-2] if base.endswith(".c") and base != ".c" else base
        self.texts.append(self.path(f"{len(self.texts) + 1}-{stem}.i"))
        return self.texts[-1]

    def keep(self, folder: str) -> None:
        """Copies the texts to a folder, which is made where it isn't there."""
        try:
            os.makedirs(folder, exist_ok=True)
            for text in self.texts:
                with open(text, "rb") as file:
                    content = file.read()
                with open(os.path.join(folder, os.path.basename(text)), "wb") as kept:
                    kept.write(content)
        except OSError as error:
            raise Failure(USAGE, f"{folder} takes no files") from error
