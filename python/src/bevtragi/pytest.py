"""A plugin for pytest: the fixture `canvas`, and what a comparison of reports shows that fails.

In conftest.py, with your application and what each test starts from:

    pytest_plugins = ["bevtragi.pytest"]

    @pytest.fixture
    def canvas_app():
        return app

    @pytest.fixture
    def canvas_world():
        return world
"""

from __future__ import annotations

import difflib
from pathlib import Path
from typing import Any

import pytest

from .asking import what_if
from .errors import hidden
from .failing import every_failure
from .rehearsal import Rehearsal
from .rehearsed_on_celery import rehearse_differences
from .rehearsing import StandIns, World, rehearse
from .reports import Failures, Report, pytest_assertrepr_compare
from .texts import Answers, Canvas
from .variations import (Orders, Redeliveries, rehearse_failures, rehearse_orders,
                         rehearse_redeliveries)

__all__ = ["Rehearsals", "canvas", "canvas_app", "canvas_world", "pytest_addoption",
           "pytest_assertrepr_compare"]

__tracebackhide__ = hidden


class Rehearsals:
    """The package's functions with an application and a world, for one test."""

    def __init__(self, app: Any, world: World, folder: Path, writes: bool) -> None:
        self.app, self.world = app, world
        self._folder, self._writes = folder, writes

    def what_if(self, flow: Canvas, tasks: Answers = {}, **how: Any) -> Report:
        return what_if(flow, tasks, app=self.app, **how)

    def every_failure(self, flow: Canvas, tasks: Answers = {}, **how: Any) -> Failures:
        return every_failure(flow, tasks, app=self.app, **how)

    def rehearse(self, flow: Canvas, stand_ins: StandIns = {}, **how: Any) -> Rehearsal:
        return rehearse(flow, stand_ins, **self._how(how))

    def failures(self, flow: Canvas, stand_ins: StandIns = {}, **how: Any) -> Failures:
        return rehearse_failures(flow, stand_ins, **self._how(how))

    def orders(self, flow: Canvas, stand_ins: StandIns = {}, **how: Any) -> Orders:
        return rehearse_orders(flow, stand_ins, **self._how(how))

    def redeliveries(self, flow: Canvas, stand_ins: StandIns = {}, **how: Any) -> Redeliveries:
        return rehearse_redeliveries(flow, stand_ins, **self._how(how))

    def differences(self, flow: Canvas, stand_ins: StandIns = {}, **how: Any) -> list[str]:
        return rehearse_differences(flow, stand_ins, **self._how(how))

    def _how(self, how: dict[str, Any]) -> dict[str, Any]:
        return {"app": self.app, "world": self.world, **how}

    def holds(self, flow: Canvas, name: str, tasks: Answers = {}, error: Any = Exception) -> None:
        """Holds what becomes of a canvas when one task fails, the text of every_failure(), against
        a file beside the test. `pytest --canvas-write` writes the file."""
        __tracebackhide__ = True
        found = every_failure(flow, tasks, error).text() + "\n"
        path = self._folder / name
        if self._writes:
            path.write_text(found, encoding="utf-8")
        wanted = path.read_text(encoding="utf-8") if path.exists() else ""
        if found != wanted:
            lines = difflib.unified_diff(wanted.splitlines(), found.splitlines(), name, "found",
                                         lineterm="")
            pytest.fail("\n".join([f"{name} holds otherwise; --canvas-write writes it", *lines]))


def pytest_addoption(parser: Any) -> None:
    """Adds the option --canvas-write."""
    parser.addoption("--canvas-write", action="store_true",
                     help="write the files against which canvas.holds() holds canvases")


@pytest.fixture
def canvas_app() -> Any:
    """The application whose tasks are called. Signatures have their own."""
    return None


@pytest.fixture
def canvas_world() -> World:
    """What gives the context manager around each rehearsal."""
    return None


@pytest.fixture
def canvas(request: Any, canvas_app: Any, canvas_world: World) -> Rehearsals:
    """The package's functions with the application and the world of the test."""
    return Rehearsals(canvas_app, canvas_world, Path(str(request.fspath)).parent,
                      request.config.getoption("--canvas-write"))
