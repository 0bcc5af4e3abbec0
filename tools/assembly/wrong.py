"""What can be wrong: a line, told in words, and the source that has it; or a file that cannot be read."""


class Cause(Exception):
    """What is wrong with a line, before it is known which line that is."""


class Failure(Exception):
    """One line that names file and cause; with the exit status of a command that ends by it."""
    status: int


class Wrong(Failure):
    """A source that gives no program."""
    status = 1


class Unread(Failure):
    """A file that cannot be read as text."""
    status = 2
