"""The timing engine for Python, with its library: `Session()` needs no path."""

from pathlib import Path

from . import engine
from .engine import *  # noqa: F401,F403  pylint: disable=wildcard-import,unused-wildcard-import

LIBRARY = str(Path(__file__).with_name("libtenphsar.so"))


class Session(engine.Session):
    """As that of `tenphsar.engine`, over the library of this package where no other is told."""

    def __init__(self, path=LIBRARY):
        super().__init__(path)
