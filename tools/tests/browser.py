"""A browser without a screen for the checks of pages: Debian's chromium, by selenium."""
from __future__ import annotations

import base64
import shutil
from pathlib import Path
from typing import Any, Optional

import pythons


def missing() -> str:
    """What isn't installed, or nothing."""
    tools = [f"{name} isn't there" for name in ("chromium", "chromedriver") if not shutil.which(name)]
    return "; ".join([*tools, *(["selenium isn't there"] if not pythons.has("selenium") else [])])


class Browser:
    """A page in chromium, without the network."""

    def __init__(self, width: int = 1280, height: int = 1000, dark: bool = False):
        from selenium import webdriver
        from selenium.webdriver.chrome.service import Service

        options = webdriver.ChromeOptions()
        options.binary_location = shutil.which("chromium")
        for word in ("--headless=new", "--no-sandbox", "--disable-gpu", "--disable-dev-shm-usage", "--host-resolver-rules=MAP * ~NOTFOUND",
                     f"--window-size={width},{height}", "--force-color-profile=srgb", *(["--force-dark-mode", "--blink-settings=preferredColorScheme=0"] if dark else [])):
            options.add_argument(word)
        options.set_capability("goog:loggingPrefs", {"browser": "ALL"})
        self.driver = webdriver.Chrome(service=Service(shutil.which("chromedriver")), options=options)
        self.driver.set_script_timeout(60)

    def __enter__(self) -> "Browser":
        return self

    def __exit__(self, *_: Any) -> None:
        self.driver.quit()

    def open(self, page: Path) -> None:
        """Goes to the file."""
        self.driver.get(page.resolve().as_uri())

    def run(self, script: str, *words: Any) -> Any:
        """What a script gives."""
        return self.driver.execute_script(script, *words)

    def devtools(self, command: str, **words: Any) -> Any:
        """Asks chromium's own protocol."""
        return self.driver.execute_cdp_cmd(command, words)

    def complaints(self) -> list[str]:
        """All that the console has."""
        return [entry["message"] for entry in self.driver.get_log("browser")]

    def picture(self, path: Path, whole: bool = False) -> None:
        """A picture of what is seen, or of the whole page."""
        words: dict[str, Any] = {"captureBeyondViewport": whole}
        if whole:
            size = self.devtools("Page.getLayoutMetrics")["cssContentSize"]
            words["clip"] = {"x": 0, "y": 0, "width": size["width"], "height": min(size["height"], 8000), "scale": 1}
        path.write_bytes(base64.b64decode(self.devtools("Page.captureScreenshot", **words)["data"]))

    def keys(self, text: str, place: Optional[str] = None) -> None:
        """Types into the element that this selector names, or where the focus is."""
        from selenium.webdriver.common.by import By

        target = self.driver.find_element(By.CSS_SELECTOR, place) if place else self.driver.switch_to.active_element
        target.send_keys(text)
