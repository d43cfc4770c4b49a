"""The lines of canvases, beside what the program says of each message: after whom it comes."""

import json
import sys
import unittest
from pathlib import Path

HERE = Path(__file__).resolve().parent
sys.path[:0] = [str(HERE.parent / "src"), str(HERE)]

from bevtragi import CanvasError, adapt
from bevtragi.coming import Coming
from bevtragi.placed import Placed
from bevtragi.rehearsed_program import RehearsedProgram
from test_start import chain, chord, group, task

EXAMPLES = HERE.parent.parent / "examples"


def canvases():
    """Canvases of each shape, adapted."""
    files = [*EXAMPLES.glob("*.json"), *EXAMPLES.glob("celery-differences/*.json"),
             *(HERE / "flows").glob("*.json")]
    alarmed = task("a", link=[task("log", link=[task("more")])],
                   link_error=[task("alarm", link=[task("after")]), task("other")])
    inner = chord([alarmed, chain(task("b"), alarmed)], alarmed)
    made = [alarmed, chain(alarmed, alarmed), chord([inner, alarmed], alarmed), group(inner, inner),
            chain(inner, alarmed, group(alarmed, chain(alarmed, inner))), chord([], alarmed),
            chain(alarmed, chord([], inner), group(alarmed, alarmed)), chord([alarmed], inner),
            chain(group(alarmed, alarmed), group(alarmed, alarmed), alarmed),
            chord([chain(inner, task("c")), task("d")], group(alarmed, inner))]
    for it in [*sorted(files), *made]:
        try:
            yield adapt(it)
        except CanvasError:
            pass


def ancestors(before):
    """All tasks before each task."""
    found = {}
    for number in sorted(before):
        found[number] = set().union(before[number], *(found[it] for it in before[number]))
    return found


class Lines(unittest.TestCase):
    def test_who_is_called_after_whom(self):
        count = 0
        for canvas in canvases():
            try:
                program = RehearsedProgram(canvas)
            except CanvasError:
                continue
            coming = Coming(Placed(json.dumps(canvas).encode(), b"[]", b"", [], {}), None)
            self.assertEqual(coming.lines.names, [*program.names.values()])
            self.assertEqual(coming.ends, program.ends())
            before = ancestors(coming.lines.before)
            for failed in [frozenset(), *(frozenset([it]) for it in [*program.names][::4])]:
                rows = coming.rows(failed)
                called = {row.number for row in rows if row.ran}
                told = program.messages(failed)
                self.assertEqual(called, {*told})
                self.assertEqual([row._replace(result=None) for row in rows],
                                 [row._replace(result=None) for row in program.rows(failed).rows])
                after = ancestors({number: it.after for number, it in told.items()})
                for number in told:
                    self.assertEqual(before[number] & called, after[number], (number, canvas))
                    count += 1
        self.assertGreater(count, 500)


if __name__ == "__main__":
    unittest.main()
