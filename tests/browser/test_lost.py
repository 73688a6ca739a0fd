"""A browser that ends in the middle of a test, as it may on a busy machine, fails no test."""
from typing import Any, List

import pytest

from browser import Browser, Chromium

tried: List[str] = []


def end_process(page: Any) -> None:
    """Ends what drives Chromium, or Firefox itself."""
    process = page.driver.service.process if isinstance(page, Chromium) else page.process
    process.kill()
    process.wait()


@pytest.mark.filterwarnings("ignore:run again")
def test_a_browser_is_lost(page: Browser) -> None:
    """The test is run again, in a browser that is begun anew."""
    tried.append(page.name)
    if tried.count(page.name) == 1:
        end_process(page)
    assert page.js("1 + 1") == 2
    assert tried.count(page.name) == 2


def test_and_another_one_begins(page: Browser) -> None:
    """What comes behind has that browser."""
    page.open("data:text/html,<title>there</title>")
    assert (page.js("document.title"), page.is_lost()) == ("there", False)
