"""Rule programs from their sources, as tools/assemble makes them; and the constants of a source, for tools that keep to the same numbers."""
from .constants import names
from .program import assembled
from .wrong import Failure

__all__ = ["assembled", "names", "Failure"]
