"""The page in Chromium: over the town, and over extracts that the environment names."""

from __future__ import annotations

import base64
import os
import re
import shutil
import subprocess
import time
from contextlib import contextmanager
from dataclasses import dataclass
from pathlib import Path

import numpy as np
import pytest
from test_page import page_of

from saminoha_planner.client import Operator
from saminoha_planner.closures import LOG
from saminoha_planner.network import Network, read_network
from saminoha_planner.site import LEAFLET

webdriver = pytest.importorskip("selenium.webdriver", reason="python3-selenium is missing")
MISSING = [
    package
    for package, is_there in (
        ("chromium", shutil.which("chromium")),
        ("chromium-driver", shutil.which("chromedriver")),
        ("libjs-leaflet", LEAFLET.is_dir()),
    )
    if not is_there
]
pytestmark = pytest.mark.skipif(
    bool(MISSING), reason=f"the page isn't tried in a browser: install {' '.join(MISSING)}"
)
WORDS = (
    "--headless=new",
    "--no-sandbox",
    "--disable-gpu",
    "--disable-dev-shm-usage",
    "--window-size=1280,900",
)


@contextmanager
def chromium(language: str):
    options = webdriver.ChromeOptions()
    options.binary_location = shutil.which("chromium") or ""
    for word in (*WORDS, f"--lang={language}"):
        options.add_argument(word)
    options.add_experimental_option("prefs", {"intl.accept_languages": language})
    options.set_capability("goog:loggingPrefs", {"browser": "ALL"})
    service = webdriver.chrome.service.Service(shutil.which("chromedriver"))
    driver = webdriver.Chrome(options=options, service=service)
    try:
        yield Browser(driver)
    finally:
        driver.quit()


class Browser:
    """What a person does on the page, and sees there."""

    def __init__(self, driver) -> None:
        self.driver = driver

    def open(self, address: str) -> None:
        self.driver.get(address)
        self.wait(lambda: self.run("return !!(window.page && page.roads && page.state)"))
        self.rest()

    def run(self, script: str, *words):
        return self.driver.execute_script(script, *words)

    def text(self, name: str) -> str:
        return self.driver.find_element("id", name).text

    def all(self, selector: str) -> list:
        return self.driver.find_elements("css selector", selector)

    def type(self, name: str, text: str) -> None:
        field = self.driver.find_element("id", name)
        field.clear()
        field.send_keys(text)

    def press(self, selector: str) -> None:
        button = self.all(selector)[0]
        self.run("arguments[0].scrollIntoView({block: 'center'})", button)
        button.click()

    def wait(self, condition, seconds: float = 30) -> None:
        deadline = time.monotonic() + seconds
        while not condition():
            assert time.monotonic() < deadline, self.text("status")
            time.sleep(0.05)

    def rest(self) -> None:
        """Waits for the map to have moved, and for its tiles."""
        for _ in range(2):
            time.sleep(0.4)
            self.wait(lambda: not self.run("return page.roads.isLoading()"))

    def ask(self, source: str, target: str) -> None:
        self.type("from", source)
        self.type("to", target)
        self.press("#ends button[type=submit]")
        self.wait(lambda: self.run("return page.answer !== null"))
        self.rest()

    def click_map(self, lon: float, lat: float) -> None:
        point = self.run(
            "return page.map.latLngToContainerPoint([arguments[0], arguments[1]])", lat, lon
        )
        box = self.driver.find_element("id", "map")
        right, down = point["x"] - box.size["width"] / 2, point["y"] - box.size["height"] / 2
        actions = webdriver.ActionChains(self.driver)
        actions.move_to_element_with_offset(box, round(right), round(down)).click().perform()

    def each(self, selector: str, what: str) -> list:
        """Of each element at once, since the page may draw anew between two questions."""
        script = f"return [...document.querySelectorAll(arguments[0])].map((one) => {what})"
        return self.run(script, selector)

    def letters(self, selector: str) -> list[str]:
        return self.each(selector, "one.getAttribute('data-letter')")

    def costs(self) -> list[list[int]]:
        return self.run("return page.answer.costs")

    def errors(self) -> list[dict]:
        return [entry for entry in self.driver.get_log("browser") if entry["level"] == "SEVERE"]

    def picture(self, name: str) -> None:
        if folder := os.environ.get("SCREENSHOTS"):
            self.driver.save_screenshot(str(Path(folder) / f"{name}.png"))


@pytest.fixture(scope="module")
def english():
    with chromium("en-GB") as browser:
        yield browser


@pytest.fixture(scope="module")
def town_server(town, served):
    with served(town.files) as server:
        yield server
    (town.folder / LOG).unlink(missing_ok=True)


@pytest.fixture(scope="module")
def address(town, town_server):
    words = ["--session", f"127.0.0.1:{town_server.port}"]
    words += ["--operator", f"127.0.0.1:{town_server.operator_port}"]
    with page_of(town.folder, *words) as (address, _):
        yield address


def test_two_clicks(english, address):
    english.open(address)
    english.click_map(10.0, 50.004)
    english.wait(lambda: "From Northend" in english.text("status"))
    english.click_map(10.009, 49.996)
    english.wait(lambda: "shown." in english.text("status"))
    assert english.text("title") == english.driver.title == "Northend – Southend"
    assert len(english.all("#map .pin svg")) == 2
    letters = english.letters("#rows tr")
    assert letters == english.letters("#plot g.option") and len(letters) >= 3
    english.rest()
    assert english.each("#map .badge", "one.textContent.trim()") == letters
    assert "least distance" in english.text("rows")
    assert re.match(r"As of \d\d:\d\d, no closures\.", english.text("stand"))
    english.picture("town")


def test_letters_stand_apart(english):
    """No disc lies on another one, on the map and in the plot."""
    for selector, least in (("#map .badge", 22), ("#plot g.option", 17)):
        boxes = english.each(selector, "one.getBoundingClientRect().toJSON()")
        middles = [(box["x"] + box["width"] / 2, box["y"] + box["height"] / 2) for box in boxes]
        for place, (x, y) in enumerate(middles):
            for across, down in middles[:place]:
                assert max(abs(x - across), abs(y - down)) >= least * 0.7


def test_choose_one(english):
    """The chosen one lights up, the others are dimmed, and differences to it are told."""
    letters = english.letters("#rows tr")
    english.press("#rows tr:nth-child(2) button")
    assert set(english.letters(".chosen")) == {letters[1]} and len(english.all(".chosen")) == 2
    dim = [one.text for one in english.all("#map .badge.dim")]
    assert sorted([*dim, letters[1]]) == letters
    costs = english.costs()
    first, second = (english.run(f"return page.answer.options[{at}].index") for at in (0, 1))
    less = (costs[second][0] - costs[first][0]) / 1000
    cells = english.all("#rows tr:nth-child(1) td.cost small")
    told = float(cells[0].text.replace("−", "-").replace("±", "").split()[0])
    assert told == pytest.approx(-less, abs=0.051)
    english.picture("town_chosen")
    english.press("#rows tr:nth-child(2) button")
    assert not english.all(".chosen")


def test_limit_by_keyboard(english):
    from selenium.webdriver.common.keys import Keys

    count = len(english.costs())
    english.driver.find_element("id", "limit-toll").send_keys(Keys.HOME)
    english.wait(lambda: "within the limits" in english.text("status"))
    assert int(re.search(r"(\d+) within", english.text("status"))[1]) < count
    assert "≤ 0.00" in english.text("limits")


def test_close_reload_and_undo(english, address):
    english.open(address)
    english.ask("Northend", "Southend")
    before = english.costs()
    english.type("road", "Old Bridge")
    english.press("#preview")
    english.wait(lambda: english.driver.find_element("id", "previewed").is_displayed())
    assert re.search(r"Old Bridge.*: \d+ arcs, [\d.]+ km", english.text("told"))
    english.type("reason", "flood")
    english.type("author", "Ann")
    english.picture("town_preview")
    english.press("#close")
    english.wait(lambda: "Old Bridge is closed." in english.text("status"))
    english.wait(lambda: english.costs() != before)
    english.wait(lambda: "Old Bridge" not in english.text("rows"))
    english.open(address)  # what is closed is there after a reload
    item = english.text("closures")
    assert "Old Bridge" in item and "flood · Ann" in item and "1 closure" in english.text("stand")
    assert english.all(".leaflet-marks-pane path")
    english.ask("Northend", "Southend")
    english.picture("town_closed")
    english.press("#closures button:last-child")
    english.wait(lambda: "is undone" in english.text("status"))
    english.wait(lambda: english.costs() == before)
    english.wait(lambda: "Nothing is closed" in english.text("closures"))


def test_stretch_between_two_clicks(english, address):
    english.open(address)
    english.press("#stretch")
    english.click_map(10.0105, 49.9995)
    english.wait(lambda: "ends" in english.text("status"))
    english.click_map(10.0105, 49.9985)
    english.wait(lambda: english.driver.find_element("id", "previewed").is_displayed())
    assert "Old Bridge" in english.text("told")
    english.press("#cancel")
    assert not english.driver.find_element("id", "previewed").is_displayed()


def test_another_operator(english, address, town, town_server, tool):
    """The page sees by itself what others publish, and asks anew."""
    english.open(address)
    english.ask("Northend", "Southend")
    before, operator = english.costs(), f"127.0.0.1:{town_server.operator_port}"
    tool("ops.py", town.folder, "shut", "--road", "Toll Bridge", "--send", operator)
    english.wait(lambda: "have changed" in english.text("status"), 20)
    english.wait(lambda: english.costs() != before)
    english.wait(lambda: "Toll Bridge" in english.text("closures"), 20)
    english.press("#closures button:last-child")
    english.wait(lambda: "is undone" in english.text("status"))
    english.wait(lambda: english.costs() == before)
    with Operator("127.0.0.1", town_server.operator_port) as other:
        other.shut(1)
        other.publish()
        english.wait(lambda: "published elsewhere" in english.text("stand"), 20)
        other.set(1, town.arc(1).weights)
        other.publish()


def test_words_that_mean_no_place(english, address):
    english.open(address)
    english.type("from", "Northendd")
    english.type("to", "Southend")
    english.press("#ends button[type=submit]")
    english.wait(lambda: "Did you mean Northend" in english.text("status"))


def print_page(browser: Browser, paper: Path, title: str) -> None:
    """The whole map, the table and the plot are on paper."""
    browser.driver.execute_async_script("page.lay_out().then(arguments[arguments.length - 1])")
    pdf = browser.driver.execute_cdp_cmd("Page.printToPDF", {"preferCSSPageSize": True})
    paper.write_bytes(base64.b64decode(pdf["data"]))
    if folder := os.environ.get("SCREENSHOTS"):
        shutil.copy(paper, folder)
    if shutil.which("pdftotext"):
        told = subprocess.run(["pdftotext", paper, "-"], capture_output=True, text=True).stdout
        assert title in told and "least distance" in told
        assert "Printed" in told and "Show alternatives" not in told
    assert browser.run(
        """const shown = page.map.getBounds();
        return page.answer.options.every((one) =>
            one.shape.getLatLngs().every((place) => shown.contains(place)))"""
    )


def test_print(english, address, tmp_path):
    english.open(address)
    english.ask("Northend", "Southend")
    print_page(english, tmp_path / "page.pdf", "Northend – Southend")


def test_phone(english, address):
    english.driver.set_window_size(400, 860)
    english.open(address)
    english.ask("Northend", "Southend")
    wide = english.run("return [document.documentElement.scrollWidth, innerWidth]")
    assert wide[0] <= wide[1]
    english.picture("town_phone")
    english.driver.set_window_size(1280, 900)
    expected = "400 (BAD REQUEST)"  # of the name that was no place
    assert all(expected in entry["message"] for entry in english.errors())


def test_german(address):
    with chromium("de-DE") as browser:
        browser.open(address)
        assert "Wählen Sie zwei Orte" in browser.text("status")
        browser.ask("Northend", "Southend")
        assert "kürzeste Strecke" in browser.text("rows")
        assert re.search(r"\d,\d+ km", browser.text("rows"))
        assert "Stand" in browser.text("stand") and "keine Sperrung" in browser.text("stand")
        browser.type("from", "Northendd")
        browser.press("#ends button[type=submit]")
        browser.wait(lambda: "Meinten Sie Northend" in browser.text("status"))
        browser.picture("town_german")


def test_what_helps_where_a_search_is_refused(english, town):
    with page_of(town.folder, "--budget", 10) as (address, _):
        english.open(address)
        english.type("from", "Northend")
        english.type("to", "Southend")
        english.press("#ends button[type=submit]")
        english.wait(lambda: english.all("#offers button"))
        assert english.text("status").startswith("Refused")
        offers = [one.text for one in english.all("#offers button")]
        assert "memory" in offers[0] and "Weigh distance, time alone" in offers
        english.picture("town_refused")
        english.press("#offers button:nth-last-child(2)")  # limits
        fields = english.all("#offers input")
        fields[0].send_keys("1.6")
        fields[2].send_keys("0")
        english.press("#offers button")
        english.wait(lambda: not english.text("status").startswith("Refused: the"))
        english.driver.get_log("browser")  # its refusals are told there too


# Over extracts: one of Liechtenstein, one of Harrogate (examples/osm/map.osm of Debian's source
# package marble), and a region that make_region.py draws.

EXTRACTS = {
    "PLANNER_EXTRACT": ("Vaduz", "Ruggell"),
    "PLANNER_HARROGATE": ("Harrogate", "Beckwithshaw"),
    "PLANNER_REGION": ("City 312-312", "Town 362-362"),
}


@dataclass
class Scene:
    """A network with the ends of a trip, a server over it, and the page of both."""

    name: str
    network: Network
    ends: tuple[str, str]
    operator: str
    address: str

    def ask(self, browser: Browser) -> list[list[int]]:
        browser.open(self.address)
        browser.ask(*self.ends)
        return browser.costs()


@pytest.fixture(scope="module", params=EXTRACTS)
def scene(request, tool, served, tmp_path_factory):
    if not (file := os.environ.get(request.param)):
        pytest.skip(f"{request.param} names no extract")
    folder = tmp_path_factory.mktemp("extract") / "network"
    tool("import_osm.py", file, folder)
    network = read_network(folder)
    with served(network.files) as server:
        operator = f"127.0.0.1:{server.operator_port}"
        words = ["--session", f"127.0.0.1:{server.port}", "--operator", operator]
        with page_of(folder, *words) as (address, _):
            name = request.param.removeprefix("PLANNER_").lower()
            yield Scene(name, network, EXTRACTS[request.param], operator, address)


def test_an_extract(english, scene, program):
    """Its first answer is the program's, and each line on the map is a walk of that answer."""
    costs = scene.ask(english)
    files, network = scene.network.files, scene.network
    nodes = [network.find(name) for name in scene.ends]
    answer = program.query(files, *nodes)
    assert costs == [list(route.cost) for route in answer.routes]
    for index, roads in english.run(
        "return page.answer.options.map((one) => [one.index, one.roads])"
    ):
        stretches = network.arrays.stretches[np.array(answer.routes[index].arcs) - 1]
        assert [road for road, _ in roads] == stretches.tolist()
    english.picture(scene.name)


def test_closures_over_an_extract(english, scene, tool):
    """Another operator's closure is seen and outlives a reload; undone, all is as before."""
    before = scene.ask(english)
    road = english.run("return page.answer.options[0].via").split(", ")[-1]
    tool("ops.py", scene.network.folder, "shut", "--road", road, "--send", scene.operator)
    english.wait(lambda: "have changed" in english.text("status"), 20)
    after = english.costs()
    assert after != before
    assert scene.ask(english) == after
    assert road in english.text("closures") and "1 closure" in english.text("stand")
    english.picture(f"{scene.name}_closed")
    english.press("#closures button:last-child")
    english.wait(lambda: "is undone" in english.text("status"))
    assert english.costs() == before
    english.type("road", road)  # and by the page itself
    english.press("#preview")
    english.wait(lambda: english.driver.find_element("id", "previewed").is_displayed())
    english.press("#close")
    english.wait(lambda: "is closed" in english.text("status"))
    english.wait(lambda: english.costs() == after)
    english.press("#closures button:last-child")
    english.wait(lambda: "is undone" in english.text("status"))
    english.wait(lambda: english.costs() == before)


def test_an_extract_on_paper_and_phone(english, scene, tmp_path):
    scene.ask(english)
    print_page(english, tmp_path / f"{scene.name}.pdf", " – ".join(scene.ends))
    english.driver.set_window_size(400, 860)
    scene.ask(english)
    wide = english.run("return [document.documentElement.scrollWidth, innerWidth]")
    assert wide[0] <= wide[1]
    english.picture(f"{scene.name}_phone")
    english.driver.set_window_size(1280, 900)


def test_an_extract_in_german(scene):
    with chromium("de-DE") as browser:
        scene.ask(browser)
        assert "kürzeste Strecke" in browser.text("rows") and "Stand" in browser.text("stand")
        browser.picture(f"{scene.name}_german")
