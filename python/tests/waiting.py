"""How long tests wait for what other processes do."""
import time
from collections.abc import Callable
from typing import Any

# Seconds. Nothing takes as long unless it hangs, also on a machine that has much else to do.
WAIT = 300.0


def wait_for(condition: Callable[[], Any], what: str) -> None:
    """Waits until something is so."""
    end = time.monotonic() + WAIT
    while not condition():
        assert time.monotonic() < end, f"{what} never came"
        time.sleep(0.02)
