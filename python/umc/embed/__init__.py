"""Programs of the language in Python: `umc.Program(text)`, its functions, and the values that they give.

docs/EMBEDDING.md describes it. Each answer is that of the program `umc`, asked in a process of its own or as a shared
library in this one.
"""
from umc.embed.engines import Process
from umc.embed.image import Image
from umc.embed.library import Library
from umc.embed.program import Function, Program
from umc.embed.quantity import Quantity
from umc.embed.refused import Refused
from umc.embed.schemes import Scheme, Type
from umc.embed.texts_of import ValueRefused
from umc.errors import LimitReached, Unavailable
from umc.errors import UmError as Error
from umc.limits import Limits

__all__ = ["Error", "Function", "Image", "Library", "LimitReached", "Limits", "Process", "Program", "Quantity",
           "Refused", "Scheme", "Type", "Unavailable", "ValueRefused"]
