"""Compiled programs: images, as `umc image` writes them."""
from typing import Any

from umc.embed import quantity, refused
from umc.embed.engines import Engine, line_of
from umc.embed.program import engine_of
from umc.embed.quantity import Quantity
from umc.embed.texts_of import Step, Writer, exact_step
from umc.errors import UmError
from umc.limits import NONE, Limits
from umc.options import BUDGET


class Image:
    """A compiled program. It is verified at each call, wherever it comes from. Units aren't in an image."""

    def __init__(self, data: bytes, *, budget: int = int(BUDGET), limits: Limits = NONE, engine: Engine | None = None):
        self.engine = engine_of(limits) if engine is None else engine
        self.budget = budget
        self._handle = self.engine.open(bytes(data))

    def printed(self, function: str, *arguments: Any, step: Step | None = None) -> str:
        """The value of a call as the program prints it. Raises `umc.Refused` if the image or the call is refused."""
        writer = Writer(None, None if step is None else exact_step(step))
        texts = [writer.text(argument) for argument in arguments]
        answer = self._handle.ask(["exec", str(self.budget), function, *texts])
        if answer.status != 0:
            raise refused.of_call(answer, texts, None)
        return line_of(answer)

    def call(self, function: str, *arguments: Any, step: Step | None = None) -> Any:
        """The value of a call of a function."""
        return quantity.value_of(self.printed(function, *arguments, step=step), _no_unit)


def _no_unit(given: Quantity, unit: str) -> Quantity:
    raise UmError(f"{given} comes from an image, which has no units")
