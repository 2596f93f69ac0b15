"""Whether what certificates claim is so, by the reference alone: by solving equations, without certificates."""
from __future__ import annotations

from conform import first_difference, match_types
from equations import Scheme
from front import Report, Source
from notes import Program
from solving import infer


def is_at_least(program: Program, scheme: Scheme, other: Scheme) -> bool:
    """Each instance of the other scheme is one of this one."""
    if first_difference(scheme.types(), other.types()) is not None:
        return False
    try:
        match_types(program, scheme, other.types(), "")
    except Report:
        return False
    return True


def is_true(claimed: Source) -> str:
    """`the same` as the reference answers, `the same instances` with other variables, or `false`."""
    schemes, refusal = infer(claimed.program)
    if refusal != claimed.refusal or len(schemes) != len(claimed.schemes):
        return "false"
    if schemes == claimed.schemes:
        return "the same"
    both = all(is_at_least(claimed.program, one, other) and is_at_least(claimed.program, other, one)
               for one, other in zip(schemes, claimed.schemes))
    return "the same instances" if both else "false"
