"""A request that can't be carried out."""


class Refused(Exception):
    """A request can't be carried out, for a reason that a person reads."""
