"""Builds the program for a browser, by tools/browser: the tests of `browser` and `playground` run it. After the gate it is of
the module that LLVM was handed of the proved program."""
from harness import ROOT, seconds, want
from harness.browser import folder

# one file that is sent by mail
MOST = 1_500_000


@seconds(300)
def test_is_built() -> None:
    page = folder() / "lockup.html"
    want(page.stat().st_size <= MOST, f"{page.relative_to(ROOT)} has {page.stat().st_size} bytes")
