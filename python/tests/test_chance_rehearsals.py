"""Some canvases from chance are rehearsed as they run; chance_rehearsals.py takes any number."""

import sys
import unittest
from pathlib import Path

HERE = Path(__file__).resolve().parent
sys.path[:0] = [str(HERE.parent / "src"), str(HERE)]

from chance_rehearsals import faults

COUNT = 25


class Chance(unittest.TestCase):
    def test_canvases_from_chance(self):
        ends = [faults(seed) for seed in range(COUNT)]
        self.assertEqual([it for it in ends if it], [])
        self.assertGreater(ends.count([]), COUNT // 2)


if __name__ == "__main__":
    unittest.main()
