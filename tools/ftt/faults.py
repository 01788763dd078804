"""Why a tool ends without doing what its words ask for."""


class Refused(Exception):
    """A mistake in a file or in an option, as text."""


class Unread(Exception):
    """A file that can't be read or written."""
