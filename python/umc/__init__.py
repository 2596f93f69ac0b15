"""The everyday front over the proved program `umc`: the command `um`, and programs of the language in Python.

It finds the program, hands it texts and words, and shows what it answers. What a program of the language means is
never decided here: the program is asked.

    import umc
    p = umc.Program(open("examples/vehicle.um").read())
    p.metres(10, unit="ft")         # Quantity('381r125<m>')
"""
from typing import Any

# What `import umc` has for other programs. It is read when it is first used, so that `um` starts without it.
__all__ = ["Error", "Function", "Image", "Library", "LimitReached", "Limits", "Process", "Program", "Quantity",
           "Refused", "Scheme", "Type", "Unavailable", "ValueRefused"]


def __getattr__(name: str) -> Any:
    if name in __all__:
        from umc import embed
        return getattr(embed, name)
    raise AttributeError(f"module 'umc' has no attribute {name!r}")


def __dir__() -> list[str]:
    return sorted([*globals(), *__all__])
