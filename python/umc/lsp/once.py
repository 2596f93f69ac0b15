"""A value that is made when it is first asked for."""
import threading
from collections.abc import Callable
from typing import Generic, TypeVar

Value = TypeVar("Value")


class Once(Generic[Value]):
    """A value that is made when it is first asked for, by one thread."""

    def __init__(self, make: Callable[[], Value]):
        self._make, self._lock = make, threading.Lock()
        self._made: list[Value] = []

    @property
    def is_made(self) -> bool:
        return bool(self._made)

    def get(self) -> Value:
        if not self._made:
            with self._lock:
                if not self._made:
                    self._made.append(self._make())
        return self._made[0]
