"""Pictures of pages, in Chromium: those of docs/page, to be looked at.

    CANVAS=PROGRAM python3 page_pictures.py FOLDER [NAME..]

They need Celery 5.2.6, which does otherwise than some of these canvases mean. README.md has the
first one. A picture has at most 150 KB.
"""

import sys
import tempfile
import time
from pathlib import Path

# No compiled modules are left in the tree.
sys.dont_write_bytecode = True

HERE = Path(__file__).resolve().parent
sys.path[:0] = [str(HERE.parent / "src"), str(HERE)]

from bevtragi import page
from browser import Browser
from page_canvases import hostile
from plain_canvases import chain, chord, s


class OutOfStock(Exception):
    """What a task of the order fails with."""


def order():
    """The order of README.md, as Celery composes it."""
    paid = chord([s("shop.charge"), s("shop.ship", "DE", errors=[s("shop.refund")])],
                 chain(s("shop.invoice"), s("shop.thank")))
    return chain(s("shop.find", 4711), paid)


def segments():
    """A film in 200 segments."""
    encoded = chord([s("media.encode", f"segment {at}") for at in range(1, 201)],
                    s("media.join", errors=[s("media.alarm")]))
    return chain(s("media.probe"), encoded, s("media.publish"))


#: A canvas, where its page is looked at, and the size and kind of the window, by a name.
PICTURES = {
    "failure": (order, "#fails=2", {"width": 1400, "height": 600}),
    "celery": (order, "#celery=2", {"width": 1400, "height": 600}),
    "folded": (segments, "#fails=17", {"width": 1400, "height": 690}),
    "phone": (order, "#fails=3", {"width": 390, "height": 844, "dark": True, "phone": True}),
    "hostile": (hostile, "#fails=3", {"width": 1200, "height": 660}),
}


def main():
    folder, names = Path(sys.argv[1]), sys.argv[2:] or [*PICTURES]
    browser = Browser()
    try:
        with tempfile.TemporaryDirectory() as room:
            for name in names:
                canvas, where, window = PICTURES[name]
                made = page(canvas(), error=OutOfStock, title=canvas.__name__)
                browser.look(**window)
                browser.open("about:blank")
                browser.open(made.save(Path(room, f"{name}.html")).as_uri() + where)
                time.sleep(0.5)
                Path(folder, f"{name}.png").write_bytes(browser.picture())
                print(name, browser.said())
    finally:
        browser.close()


if __name__ == "__main__":
    main()
