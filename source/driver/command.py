"""The command: from its words to the report and the status."""

from __future__ import annotations

import os
import sys

from .analysis import Answer, answer_over
from .failure import (
    ALARMS, CLEAN, NO_MEMORY, NOT_RUN, SAID_OF_STATUS, UNWRITTEN, Failure, Misused, Stopped, say,
    unreadable,
)
from .outside import notes_on
from .preprocessor import Preprocessor
from .processes import hear_signals, run
from .progress import Progress
from .room import Room
from .words import Request, Source, read_words


def main(words: list[str]) -> int:
    """Runs the command, and gives its status."""
    hear_signals()
    request = None
    try:
        request = read_words(words)
        Progress.has_lines = request.has_progress
        status = analyse(request)
    except Misused as misused:
        # The program says how it is used.
        run([os.environ["SPARROW_PROGRAM"]])
        misused.say()
        return misused.status
    except Failure as failure:
        failure.say()
        return failed(request, failure)
    except Stopped as stopped:
        return stopped.status
    except MemoryError:
        status = NO_MEMORY
    except OSError as error:
        said = f"{error.filename or 'a temporary file'}: {error.strerror}"
        say(said)
        return failed(request, Failure(NOT_RUN, said))
    if status in SAID_OF_STATUS:
        say(SAID_OF_STATUS[status])
    return status


def analyse(request: Request) -> int:
    """Preprocesses the files, analyses what comes of them, and writes the report."""
    preprocessor = Preprocessor()
    sources = sources_of(request)
    files = [source.file for source in sources]
    writer = None
    if not request.report.is_plain:
        # What writes reports is read only where it is needed.
        from report.writer import Writer

        writer = Writer(request.report)
    for source in sources:
        check_readable(source.file)
    with Room() as room:
        for number, source in enumerate(sources, 1):
            with Progress(f"preprocessing {number} of {len(sources)}"):
                preprocessor.write(source.file, source.options, room.place_for(source.file))
        if writer is not None:
            writer.remember(files, room.texts)
        answer = answer_over(room, files, request)
        if answer.status in (CLEAN, ALARMS):
            answer.notes = notes_on(room)
        if request.keep is not None:
            room.keep(request.keep)
        if writer is not None:
            answer = writer.told(answer, room.texts)
        if not is_written(answer):
            return UNWRITTEN
        for note in answer.notes:
            say(note)
        return answer.status


def failed(request: Request | None, failure: Failure) -> int:
    """Writes that the run has failed, where the form of its report has room for it."""
    if request is not None and not request.report.is_plain:
        from report import writer

        try:
            is_written(writer.failed(request.report, failure))
        except Failure:
            # The file of the report was what failed, or fails now too.
            pass
    return failure.status


def sources_of(request: Request) -> list[Source]:
    """The files that the words give, or those of a database, each with its options."""
    if request.database is None:
        return [Source(file, request.options) for file in request.files]
    from .database import sources_in

    return sources_in(request.database, request)


def check_readable(file: str) -> None:
    """Ends where a file can't be read."""
    try:
        with open(file, "rb") as opened:
            opened.read(1)
    except (OSError, ValueError) as error:
        raise unreadable(file, error) from error


def is_written(answer: Answer) -> bool:
    """Writes to standard output, and tells whether that took it. A hint is said once."""
    said: set[str | None] = {None}
    try:
        for part, hint in answer.parts:
            sys.stdout.buffer.write(part)
            sys.stdout.flush()
            if hint not in said:
                say(f"hint: {hint}")
                said.add(hint)
    except (OSError, AttributeError):
        # What Python has kept would be written, and fail, once more at the end.
        os.dup2(os.open(os.devnull, os.O_WRONLY), 1)
        return False
    return True
