"""What is raised where the program or a server refuses: a class for each cause, with the cause in its own words."""
from __future__ import annotations


class IdxtoolError(Exception):
    """The program or a server refused. `status` is its number, `line` the cause in its own words."""

    def __init__(self, status: int, line: str, help_lines: str = "") -> None:
        super().__init__(status, line, help_lines)
        self.status = status
        self.line = line
        self.help_lines = help_lines

    def __str__(self) -> str:
        return f"{self.line}\n{self.help_lines}" if self.help_lines else self.line


class MissingTimestep(IdxtoolError):
    """The timestep is not there, whoever says it."""


class ChangedError(Exception):
    """The timestep was written again while it was read, and again when that began anew: revisions are not mixed."""

    def __init__(self, time: int) -> None:
        super().__init__(time)
        self.time = time

    def __str__(self) -> str:
        return f"timestep {self.time} was written again while it was read, twice; read it again"


class OtherTypeError(Exception):
    """The server's samples have another type than the header says: it serves another dataset under this name."""


class SharedFoldersError(Exception):
    """Another dataset beside this one has the same folders for its timesteps, so that one would be a revision of the other."""


class ProgramError(IdxtoolError):
    """The program ended with an exit status other than 0.

    `line` is its first line on standard error, as `idxtool: store fault`; `help_lines` are the further ones.
    """


class UsageError(ProgramError):
    """A word is wrong or missing (1)."""


class HeaderError(ProgramError):
    """A header is wrong, or there is none (2)."""


class RawSizeError(ProgramError):
    """The raw file has another size (3)."""


class RawError(ProgramError):
    """The raw file could not be read (4)."""


class StoreError(ProgramError):
    """The header or a file of the dataset could not be read or written (5)."""


class RevisionsError(ProgramError):
    """All 256 revisions of the timestep are there already (6)."""


class OtherHeaderError(ProgramError):
    """The header that is there does not agree (6)."""


class NotPublishedError(ProgramError, MissingTimestep):
    """The timestep is not there (7)."""


class QuestionError(ProgramError):
    """The dataset has no such axes, field, region or levels (8)."""


class NoStepError(ProgramError):
    """The header has no such timestep (8)."""


class TooLargeError(ProgramError):
    """Too many bytes are asked for, or to be written (8)."""


class SinkError(ProgramError):
    """Standard output did not take all (9)."""


class TableError(ProgramError):
    """The table of a file is damaged (10)."""


class NoMemoryError(ProgramError):
    """The program had not enough memory (11)."""


class AddressError(ProgramError):
    """The address cannot be listened at (12)."""


PROGRAM_ERRORS: dict[tuple[int, str], type[ProgramError]] = {
    (1, ""): UsageError, (2, ""): HeaderError, (3, ""): RawSizeError, (4, ""): RawError, (5, ""): StoreError,
    (6, "published"): RevisionsError, (6, "other header"): OtherHeaderError, (7, ""): NotPublishedError,
    (8, "no step"): NoStepError, (8, "too large"): TooLargeError, (8, ""): QuestionError, (9, ""): SinkError,
    (10, ""): TableError, (11, ""): NoMemoryError, (12, ""): AddressError,
}
"""The class for an exit status and the beginning of the cause; the first one that fits counts."""


def program_error(status: int, errors: bytes) -> ProgramError:
    """The error for a run that ended with a status other than 0 and wrote these bytes to standard error."""
    line, _, rest = errors.decode(errors="replace").partition("\n")
    cause = line.removeprefix("idxtool: ")
    fitting = (kind for (number, start), kind in PROGRAM_ERRORS.items() if number == status and cause.startswith(start))
    return next(fitting, ProgramError)(status, line or f"idxtool: ended with status {status}", rest.rstrip("\n"))


class ServerError(IdxtoolError):
    """The server replied with an HTTP status other than 200; `line` has the status and the word, as `404 NotPublished`."""


class BadRequest(ServerError):
    """The request is wrong (400, 405, 431, 501): the word says how."""


class UnknownField(BadRequest):
    """The dataset has no such field (400)."""


class BadTime(BadRequest):
    """The time is no number of a timestep (400)."""


class BadBox(BadRequest):
    """The box is none, or has another number of axes (400)."""


class BadLevels(BadRequest):
    """The dataset has no such levels (400)."""


class OutsideVolume(BadRequest):
    """The box leaves that of the dataset (400)."""


class NotPublished(ServerError, MissingTimestep):
    """The timestep is not there (404)."""


class OtherDataset(ServerError):
    """The server has no dataset of this name, or nothing at this path (404)."""


class TooLarge(ServerError):
    """The answer would have more than 2^28 bytes (413)."""


class StoreFault(ServerError):
    """The server could not read a file of the dataset (500)."""


class NoMemory(ServerError):
    """The server had no memory for this answer; ask again (503)."""


SERVER_ERRORS: dict[str, type[ServerError]] = {
    "UnknownField": UnknownField, "BadTime": BadTime, "BadBox": BadBox, "BadLevels": BadLevels,
    "OutsideVolume": OutsideVolume, "NotPublished": NotPublished, "OtherDataset": OtherDataset, "OtherPath": OtherDataset,
    "TooLarge": TooLarge, "StoreFault": StoreFault, "NoMemory": NoMemory,
}
"""The class for a server's word. The other words of status 400, and those of 405, 431 and 501, are BadRequest."""


def server_error(status: int, body: bytes) -> ServerError:
    """The error for a reply with a status other than 200."""
    word = body.decode(errors="replace").strip()
    other = BadRequest if status in (400, 405, 431, 501) else ServerError
    return SERVER_ERRORS.get(word, other)(status, f"{status} {word[:200]}")
