"""Pictures in Graphviz's language."""

from __future__ import annotations

import shutil
import subprocess

from .errors import CanvasError, hidden

__all__ = ["Picture"]

__tracebackhide__ = hidden

#: The seconds that Graphviz may take.
SECONDS = 20


class Picture(str):
    """A picture in Graphviz's language. A notebook shows it where `dot` is, and else its text."""
    def svg(self) -> str:
        """The picture as SVG. CanvasError if there is no `dot`, it fails, or it takes more than 20
        seconds: bevtragi.page() shows a large canvas."""
        try:
            return subprocess.run(["dot", "-Tsvg"], input=self.encode(), capture_output=True,
                                  check=True, timeout=SECONDS).stdout.decode()
        except subprocess.TimeoutExpired as error:
            raise CanvasError(f"Graphviz took more than {SECONDS} seconds: bevtragi.page() shows a"
                              " large canvas") from error
        except (OSError, subprocess.CalledProcessError) as error:
            raise CanvasError(f"Graphviz makes no picture: {error}") from error

    def _repr_svg_(self) -> str | None:
        return self.svg() if shutil.which("dot") else None

    __repr__ = str.__str__
