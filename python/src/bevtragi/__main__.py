"""`python -m bevtragi page` makes a page; with all other words `python -m bevtragi WORDS` is
`canvas WORDS`."""

from __future__ import annotations

import os
import sys

from .calling import path_of_program
from .errors import CanvasError
from .wheel import compare, own_program


def main() -> int:
    """Becomes the wheel's program, and not the one that $CANVAS names, which may be the wheel's own command;
    without a wheel the program that the package calls. The status is 126 if there is none, or if
    the wheel's was replaced."""
    try:
        own = own_program()
        path = str(own) if own.is_file() else path_of_program()
        compare(path)
        os.execv(path, ["canvas", *sys.argv[1:]])
    except (CanvasError, OSError, ValueError) as error:
        print(f"canvas: {error}", file=sys.stderr)
    return 126


def called() -> int:
    """What `python -m bevtragi` does with its words."""
    if sys.argv[1:2] == ["page"]:
        from .page_command import page_command
        return page_command(sys.argv[2:])
    return main()


if __name__ == "__main__":
    sys.exit(called())
