"""Words of a tool that one of its functions reads."""
import argparse
from collections.abc import Callable
from typing import TypeVar

T = TypeVar("T")


def read_by(read: Callable[[str], T]) -> Callable[[str], T]:
    """That function as a type of argparse: what it says against a word is told as the fault of the word."""
    def word(text: str) -> T:
        try:
            return read(text)
        except ValueError as fault:
            raise argparse.ArgumentTypeError(str(fault)) from None
    return word
