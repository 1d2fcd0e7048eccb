"""The exceptions of the package. If memory runs out, `MemoryError` is raised."""


class Refused(ValueError):
    """Raised if the library has no result for the arguments. Nothing has changed."""


class Malformed(Refused):
    """Raised if a message or a stored form can't be read."""


class HeaderMapFull(Refused):
    """Raised if a message has more fields than the library can hold: forward it, and don't store it."""


class DateNotPrintable(Refused):
    """Raised if a Date would be before 1900."""


class BadArgument(Refused):
    """Raised if an option or a time is out of range."""


class LibraryNotFound(ImportError):
    """Raised if the shared library can't be loaded."""
