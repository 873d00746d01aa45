"""What keeps the job from being done."""


class CannotDo(Exception):
    """The job could not be done, for this reason; the exit status is 2."""


class Stopped(Exception):
    """Somebody stopped the job (Ctrl-C, SIGTERM, SIGHUP); the exit status is 2."""


def reason_of(error):
    """The operating system's words for an OSError, without the name of the file."""
    return getattr(error, "strerror", None) or str(error) or type(error).__name__
