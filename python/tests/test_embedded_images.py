"""Programs in Python: images of programs."""
from fractions import Fraction
from typing import Any

import pytest

import umc
from conftest import HOME, PROGRAM


def test_images(engine: Any) -> None:
    answer = umc.Process(PROGRAM).answer(["image"], (HOME / "examples/mean.um").read_bytes())
    image = umc.Image(answer.output, engine=engine)
    assert (image.call("mean", [1, 2]).magnitude, image.printed("mean", [1, 2])) == (Fraction(3, 2), "3r2")
    with pytest.raises(umc.Refused) as caught:
        image.call("mean", True)
    assert caught.value.status == 11
    with pytest.raises(umc.Refused) as caught:
        umc.Image(answer.output[:-1], engine=engine).call("mean", [1])
    assert caught.value.kind == "image"
