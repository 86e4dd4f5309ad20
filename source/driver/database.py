"""The files and options of a program by compile_commands.json, as CMake and Bear write it."""

from __future__ import annotations

import json
import os
import shlex
from typing import Optional

from .failure import USAGE, Failure, unreadable
from .words import WITH_ARGUMENT, Request, Source

# Options whose argument is the name of a folder or file.
WITH_PATH = WITH_ARGUMENT - {"-D", "-U"}
# What a folder of a target's outputs has behind the name: CMake's, and Meson's.
TARGET_ENDINGS = ("dir", "p")


def sources_in(database: str, request: Request) -> list[Source]:
    """The files of a database, or those of them that the words give, each with its options."""
    wanted = {os.path.realpath(file) for file in request.files}
    found: list[Source] = []
    seen: set[tuple[str, tuple[str, ...]]] = set()
    for entry in read_entries(database):
        source = source_of(entry, request)
        if source is None or (wanted and os.path.realpath(source.file) not in wanted):
            continue
        told = (source.file, tuple(source.options))
        if told not in seen:
            seen.add(told)
            found.append(source)
    missing = wanted - {os.path.realpath(source.file) for source in found}
    if not found and not missing and request.target is not None:
        raise Failure(
            USAGE, f"{database} has no target {request.target}: {choices_in(database)}"
        )
    if missing or not found:
        what = min(missing) if missing else "a file of C"
        raise Failure(USAGE, f"{database} has no entry for {what}")
    names: set[str] = set()
    for source in found:
        if source.file in names:
            raise Failure(
                USAGE, f"{source.file} is compiled more than once: {choices_in(database)}"
            )
        names.add(source.file)
    return found


def choices_in(database: str) -> str:
    """What `--target` may be for a database."""
    targets: set[str] = set()
    for entry in read_entries(database):
        if isinstance(entry, dict):
            targets |= targets_of(output_of(entry.get("output"), words_of(entry, database)))
    if not targets:
        return "give the files of one program, since no output tells a target"
    said = f"--target NAME takes one of {', '.join(sorted(targets))}"
    # The only folder is often that of all programs.
    return said if len(targets) > 1 else f"give the files of one program; {said}"


def read_entries(path: str) -> list[object]:
    """The entries of a database."""
    try:
        with open(path, encoding="utf-8") as file:
            entries = json.load(file)
    except OSError as error:
        raise unreadable(path, error) from error
    except (ValueError, RecursionError) as error:
        raise Failure(USAGE, f"{path} is no JSON") from error
    if not isinstance(entries, list):
        raise Failure(USAGE, f"{path} is no list of commands")
    return entries


def source_of(entry: object, request: Request) -> Optional[Source]:
    """The source of an entry; None for other languages and other targets."""
    if not isinstance(entry, dict):
        raise Failure(USAGE, f"{request.database} has an entry that is no command")
    folder, file = entry.get("directory"), entry.get("file")
    words = words_of(entry, request.database or "")
    if (
        not isinstance(folder, str)
        or not isinstance(file, str)
        or words is None
    ):
        raise Failure(USAGE, f"{request.database} has an entry without directory, file or command")
    is_wanted = is_of_target(output_of(entry.get("output"), words), request.target)
    if not file.endswith(".c") or not is_wanted:
        return None
    return Source(from_folder(folder, file), options_of(folder, words) + request.options)


def words_of(entry: dict[object, object], database: str) -> Optional[list[str]]:
    """The words of an entry's command, where it has one."""
    words, command = entry.get("arguments"), entry.get("command")
    if words is None and isinstance(command, str):
        try:
            return shlex.split(command)
        except ValueError as error:
            raise Failure(USAGE, f"{database} has a command that isn't closed") from error
    if not isinstance(words, list) or not all(isinstance(word, str) for word in words):
        return None
    return words


def output_of(output: object, words: Optional[list[str]]) -> str:
    """Where a command writes to."""
    if isinstance(output, str):
        return output
    return words[words.index("-o") + 1] if words and "-o" in words[:-1] else ""


def targets_of(output: str) -> set[str]:
    """The target that an output tells: a folder NAME.dir or NAME.p, or else the last one."""
    folders = [folder for folder in output.split("/")[:-1] if folder not in ("", ".", "..")]
    for folder in folders:
        stem, dot, ending = folder.rpartition(".")
        if stem and dot and ending in TARGET_ENDINGS:
            return {stem}
    return set(folders[-1:])


def is_of_target(output: str, target: Optional[str]) -> bool:
    """Whether what is compiled belongs to a target: a folder of its output has its name."""
    if target is None:
        return True
    names = (target, *(f"{target}.{ending}" for ending in TARGET_ENDINGS))
    return any(name in output.split("/") for name in names)


def options_of(folder: str, words: list[str]) -> list[str]:
    """The options of the preprocessor among a compiler's words."""
    options = []
    at = 1
    while at < len(words):
        word = words[at]
        at += 1
        # The longest name counts: -include isn't -I.
        name = max((each for each in WITH_ARGUMENT if word.startswith(each)), key=len, default=None)
        if name is None:
            continue
        argument = word[len(name) :]
        if not argument and at < len(words):
            argument = words[at]
            at += 1
        options += [name, from_folder(folder, argument) if name in WITH_PATH else argument]
    return options


def from_folder(folder: str, path: str) -> str:
    """A path of a folder, as it is from the current one."""
    if os.path.realpath(folder) == os.path.realpath(os.curdir) and not os.path.isabs(path):
        return path
    joined = os.path.normpath(os.path.join(folder, path))
    inside = os.path.relpath(joined)
    return joined if inside.startswith(os.pardir) else inside
