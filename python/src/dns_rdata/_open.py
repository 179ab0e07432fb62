"""Enums of numbers that have a member for every number of some bits."""

from __future__ import annotations

import enum
from typing import Optional, Tuple, Type


class OpenEnum(enum.IntEnum):
    """An enum in which a number without a name of its own is a member, too, whose name is a word and the number."""

    @classmethod
    def _others(cls) -> Tuple[str, int]:
        """The word, and how many numbers there are."""
        raise NotImplementedError

    @classmethod
    def _missing_(cls, value: object) -> Optional[OpenEnum]:
        word, count = cls._others()
        if not isinstance(value, int) or not 0 <= value < count:
            return None
        member = int.__new__(cls, value)
        member._name_ = f"{word}{value}"
        member._value_ = value
        return member

    def __reduce_ex__(self, protocol: object) -> Tuple[Type[OpenEnum], Tuple[int]]:
        # By the number, since some versions of Python pickle the name, and find members of the class alone by it.
        return type(self), (int(self),)
