"""The snippets of the pages: found, run where they are commands, held to the files that they are taken from. tools/snippets says how."""
from .trial import tried

__all__ = ["tried"]
