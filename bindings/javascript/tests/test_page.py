"""docs/demo in browsers without a window, as a visitor uses it, and the package for npm in that page."""
import pytest
from running import TOP, has_node, needs, run

MINI_BROWSER = "/usr/lib/x86_64-linux-gnu/webkit2gtk-4.1/MiniBrowser"
pytestmark = has_node()


@pytest.mark.parametrize("browser", [
    pytest.param("Chromium", marks=needs("chromium")), pytest.param("Firefox", marks=needs("firefox-esr")),
    pytest.param("WebKit", marks=needs("xvfb-run", MINI_BROWSER))])
def test_the_page_and_the_package_in_it(site, browser):
    named = {"BROWSER": browser, "PAGE": TOP / "docs/demo", "VECTORS": TOP / "bindings/vectors"}
    run("node", "--test", "--test-reporter=spec", "page.test.mjs", cwd=site, env=named)
