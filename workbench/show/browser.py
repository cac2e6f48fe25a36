"""A page in Chromium without a window, to make pictures of it and to try it."""
from __future__ import annotations

import base64
import contextlib
import importlib
import io
import pathlib
import shutil
from typing import Any, Dict, Iterator, Sequence

from ..packages import install_line
from ..solid import Refusal

SECONDS = 600  # how long a page may take to be ready, on a machine that has much to do
STARTS = 3  # how often a browser is started that does not answer
SHEET: Dict[str, Any] = {
    "paperWidth": 8.27,  # A4, in inches
    "paperHeight": 11.69,
    "printBackground": True,
}
WORDS = (
    "--headless=new",
    "--no-sandbox",  # else it does not run as root
    "--disable-dev-shm-usage",
    "--use-angle=swiftshader",  # draws without a graphics card
    "--enable-unsafe-swiftshader",
    "--hide-scrollbars",
    "--force-color-profile=srgb",
)


@contextlib.contextmanager
def chromium(*words: str, size: str = "1280,900") -> Iterator[Any]:
    """A driver of a browser. Refusal: a package is missing, or it does not start."""
    for name, package in (("chromium", "chromium"), ("chromedriver", "chromium-driver")):
        if shutil.which(name) is None:
            raise Refusal(install_line(package))
    driver = started((*WORDS, f"--window-size={size}", *words))
    driver.set_script_timeout(SECONDS)
    driver.set_page_load_timeout(SECONDS)
    try:
        yield driver
    finally:
        driver.quit()


def started(words: Sequence[str]) -> Any:
    """A driver of a browser that runs with these words. Refusal: python3-selenium is missing, or it does not start."""
    try:
        from selenium import webdriver
        from selenium.common.exceptions import WebDriverException
        from selenium.webdriver.chrome.service import Service
    except ImportError as fault:
        raise Refusal(install_line("python3-selenium")) from fault
    options = webdriver.ChromeOptions()
    for word in words:
        options.add_argument(word)
    options.set_capability("goog:loggingPrefs", {"browser": "ALL"})
    why = ""
    for _ in range(STARTS):
        try:
            return webdriver.Chrome(
                options=options, service=Service(shutil.which("chromedriver") or "chromedriver")
            )
        except WebDriverException as fault:
            why = (fault.msg or "").partition("\n")[0]
    raise Refusal(f"Chromium does not start: {why}")


def open_page(driver: Any, path: str) -> None:
    """Opens a page; it is ready once it is loaded."""
    driver.get(pathlib.Path(path).resolve().as_uri())


def strip(driver: Any) -> bytes:
    """The pictures of all steps of the page that is open, as a PNG file."""
    address = driver.execute_script("return report.strip().toDataURL('image/png')")
    return small(base64.b64decode(address.partition(",")[2]))


def paper(driver: Any) -> bytes:
    """The page that is open as it is printed, as a PDF file."""
    told = driver.execute_cdp_cmd("Page.printToPDF", dict(SHEET))
    return base64.b64decode(told["data"])


def small(data: bytes) -> bytes:
    """The picture with 255 colours, where PIL is there; else as it is."""
    try:
        images: Any = importlib.import_module("PIL.Image")
    except ImportError:
        return data
    out = io.BytesIO()
    picture = images.open(io.BytesIO(data)).convert("RGB")
    picture.quantize(255, dither=images.Dither.NONE).save(out, "PNG", optimize=True)
    return out.getvalue()
