"""What is told of a sheet."""

from dataclasses import dataclass


@dataclass(frozen=True, order=True)
class Finding:
    """Where something is likely a mistake, and a sentence on it."""

    at: int
    said: str
