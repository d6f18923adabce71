"""Why something could not be done, in words for the user."""


class Fault(Exception):
    """Ends the work on a tape with a line, and status 3."""


class Nothing(Fault):
    """There is nothing to draw."""


class NoSound(Fault):
    """The file can't be read as sound."""


class NotThere(NoSound):
    """The file could not be opened at all: it was not looked at."""


class NoPicture(Fault):
    """The rows of its picture can't be looked at."""


class NoProgram(Fault):
    """A program is missing, or said what it should not."""


class NoTarget(Fault):
    """A file is not written, since something would be harmed."""


class NoStamp(Fault):
    """A stamp is not written, since it would not be sure or could not be stored in the copy."""


def reason_of(fault: Exception) -> str:
    """The reason in words, on one line."""
    text = fault.strerror.lower() if isinstance(fault, OSError) and fault.strerror else str(fault)
    return " ".join(text.split())
