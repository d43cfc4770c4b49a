"""The types of the package, and of a test that uses it, as mypy sees them."""

import os
import subprocess
import sys
import tempfile
import unittest
from importlib.util import find_spec
from pathlib import Path

HERE = Path(__file__).resolve().parent
USE = '''
from typing import Dict
from bevtragi import every_failure, on_celery, page, rehearse, rehearse_orders, run, what_if

fails: Dict[str, type] = {"shop.ship": ConnectionError}
numbered: Dict[int, object] = {2: ConnectionError("no route")}
flow = {"task": "shop.ship"}
report = what_if(flow, fails)
reveal_type(report["shop.ship"].raised)
every_failure(flow, fails)
page(flow, fails, error=ConnectionError, workers=[2]).save("order.html")
run(flow, numbered, again={"shop.ship": "late"})
on_celery(flow, fails)
rehearsal = rehearse(flow, fails, order=[2, 1], again={2: ["early", "lost"]})
reveal_type(rehearsal.of("shop.ship")[0].retries)
assert not rehearse_orders(flow, numbered)
'''


@unittest.skipUnless(find_spec("mypy"), "mypy isn't installed")
class Types(unittest.TestCase):
    def test_the_package_and_its_use(self):
        with tempfile.TemporaryDirectory() as room:
            use = Path(room, "use.py")
            use.write_text(USE)
            ran = subprocess.run(
                [sys.executable, "-B", "-m", "mypy", "--config-file", str(HERE.parent / "mypy.ini"),
                 "--cache-dir", room, "-p", "bevtragi", "-m", "use"], cwd=room, check=False,
                capture_output=True, text=True,
                env={**os.environ, "MYPYPATH": f"{HERE.parent / 'src'}{os.pathsep}{room}"})
        self.assertEqual(ran.returncode, 0, ran.stdout + ran.stderr)
        self.assertRegex(ran.stdout, 'type is "(Union.builtins.str, None.|builtins.str . None)"')
        self.assertIn('type is "builtins.int"', ran.stdout)


if __name__ == "__main__":
    unittest.main()
