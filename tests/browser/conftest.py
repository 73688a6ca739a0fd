"""A browser for each file of tests of the page, and a folder for each test. A test whose browser is
lost meanwhile is run again, once. With RAN, a folder, in the environment it is written there what
each test in Chromium runs of the page's script."""
import os
import pathlib
import sys
import tempfile
import time
from typing import Any, Dict, Generator, Iterator, Optional, Type

import pytest
from _pytest.runner import runtestprotocol

sys.dont_write_bytecode = True
sys.path.append(str(pathlib.Path(__file__).resolve().parent))
pytest.importorskip("selenium", reason="needs Debian's python3-selenium")
from browser import Browser, Chromium  # noqa: E402 (it lies beside this)
from counting import Counting  # noqa: E402
from firefox import Firefox  # noqa: E402

RAN = os.environ.get("RAN")
KINDS: Dict[str, Type[Browser]] = {"Chromium": Chromium, "Firefox": Firefox}
if RAN:
    KINDS["Chromium"] = Counting
# of a test, whether its browser was lost
IS_LOST = pytest.StashKey[bool]()


def pytest_configure(config: pytest.Config) -> None:
    config.addinivalue_line("markers", "browsers(*names): the browsers in which a test is tried")


def pytest_generate_tests(metafunc: pytest.Metafunc) -> None:
    """Tries a test in each browser, or in those alone that its file or its mark names."""
    if "page" in metafunc.fixturenames:
        marks = list(metafunc.definition.iter_markers("browsers"))
        names = marks[0].args if marks else tuple(KINDS)
        metafunc.parametrize("page", names, indirect=True, scope="module")


@pytest.hookimpl(hookwrapper=True)  # type: ignore[misc]
def pytest_runtest_call(item: pytest.Item) -> Generator[None, Any, None]:
    """Begins a browser anew that was lost in a test, for that test and those after it."""
    outcome = yield
    page = getattr(item, "funcargs", {}).get("page")
    item.stash[IS_LOST] = False
    if outcome.excinfo and isinstance(page, Browser) and page.is_lost():
        item.stash[IS_LOST] = True
        page.begin_anew()


@pytest.hookimpl(tryfirst=True)  # type: ignore[misc]
def pytest_runtest_protocol(item: pytest.Item, nextitem: Optional[pytest.Item]) -> bool:
    """Runs a test again, once, whose browser was lost, and says so."""
    of: Dict[str, Any] = {"nodeid": item.nodeid, "location": item.location}
    item.ihook.pytest_runtest_logstart(**of)
    reports = runtestprotocol(item, log=False, nextitem=nextitem)
    if item.stash.get(IS_LOST, False):
        item.warn(pytest.PytestWarning(f"run again, since the browser was lost: {item.nodeid}"))
        reports = runtestprotocol(item, log=False, nextitem=nextitem)
    for it in reports:
        item.ihook.pytest_runtest_logreport(report=it)
    item.ihook.pytest_runtest_logfinish(**of)
    return True


@pytest.fixture(autouse=True)
def counted(request: pytest.FixtureRequest) -> Iterator[None]:
    """Writes what a test ran, where that is wanted."""
    begin, test = time.monotonic(), request.node
    yield
    page = test.funcargs.get("page")
    if RAN and isinstance(page, Counting):
        page.write(pathlib.Path(RAN), test.path.name, test.name, time.monotonic() - begin)


@pytest.fixture(scope="module")
def page(request: pytest.FixtureRequest) -> Iterator[Browser]:
    kind = KINDS[request.param]
    if not kind.is_there():
        pytest.skip(f"needs {kind.name}")
    browser = kind()
    yield browser
    browser.close()


@pytest.fixture
def folder() -> Iterator[pathlib.Path]:
    """A folder that is thrown away at once: some files are large."""
    with tempfile.TemporaryDirectory() as name:
        yield pathlib.Path(name)
