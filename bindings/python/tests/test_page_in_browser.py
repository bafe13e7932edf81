"""The page in headless Chromium, from the file system."""

import shutil

import pytest

from rules import LETTERS
from running import runner

webdriver = pytest.importorskip("selenium.webdriver")
from selenium.webdriver.chrome.service import Service  # noqa: E402
from selenium.webdriver.common.by import By  # noqa: E402
from selenium.webdriver.common.keys import Keys  # noqa: E402

BROWSER, DRIVER = shutil.which("chromium"), shutil.which("chromedriver")
pytestmark = pytest.mark.skipif(not (BROWSER and DRIVER), reason="chromium or chromedriver isn't there")

HOSTILE = "</script><img src=x onerror=document.title='bad'><b>&amp;"
RECORD = (
    f"(;SZ[3]KM[0.5]PB[Ann]PW[{HOSTILE}]RE[B+R]C[{HOSTILE}];W[aa];B[ab]C[Two lines,\nthis is one];W[cc];B[ba];W[])"
    f"(;SZ[19]PB[Cy]PW[Di]AB[dd][pp];W[pd];B[dp];W[dp])(;SZ[3];B[aa]7)(;SZ[25]"
    + ";B[aa];W[bb];B[cc]"
    + ";B[];W[]" * 40
    + ")"
).encode()


@pytest.fixture(scope="module")
def driver():
    options = webdriver.ChromeOptions()
    options.binary_location = BROWSER
    for word in ("--headless=new", "--no-sandbox", "--disable-gpu", "--hide-scrollbars", "--window-size=1200,900"):
        options.add_argument(word)
    options.set_capability("goog:loggingPrefs", {"browser": "ALL"})
    browser = webdriver.Chrome(service=Service(DRIVER), options=options)
    yield browser
    browser.quit()


@pytest.fixture
def page(driver, capsys, tmp_path):
    """The page of a record, and functions that look at it."""
    (tmp_path / "game.sgf").write_bytes(RECORD)
    end = runner(capsys)("page", tmp_path / "game.sgf")
    (tmp_path / "game.html").write_text(end.out, encoding="utf-8")
    driver.get((tmp_path / "game.html").as_uri())
    yield Look(driver)
    assert [entry for entry in driver.get_log("browser") if entry["level"] == "SEVERE"] == []


class Look:
    def __init__(self, driver):
        self.driver = driver

    def text(self, name):
        return self.driver.find_element(By.ID, name).get_property("textContent")

    def is_shown(self, name):
        return self.driver.find_element(By.ID, name).is_displayed()

    def stones(self):
        """The stones of the picture by their vertices."""
        size = (
            float(self.driver.find_element(By.ID, "picture").get_dom_attribute("viewBox").split()[2]) - 104
        ) / 40 + 1
        found = {}
        for stone in self.driver.find_elements(By.CSS_SELECTOR, "#stones circle:not(.mark)"):
            column, row = ((float(stone.get_dom_attribute(name)) - 52) / 40 for name in ("cx", "cy"))
            found[f"{LETTERS[int(column)]}{int(size - row)}"] = stone.get_attribute("class")
        return found

    def press(self, *keys):
        self.driver.find_element(By.TAG_NAME, "body").send_keys(*keys)

    def click(self, label):
        self.driver.find_element(By.CSS_SELECTOR, f"button[aria-label='{label}']").click()

    def choose(self, number):
        self.driver.find_elements(By.TAG_NAME, "option")[number - 1].click()


def test_buttons_step_through_the_game(page):
    assert page.text("now") == "before the first move (of 5)" and page.stones() == {}
    page.click("1 move on")
    assert page.text("now") == "move 1 W A3 (of 5)" and page.stones() == {"A3": "white"}
    page.click("10 moves on")
    assert page.text("now") == "move 5 W pass (of 5)" and page.stones() == {"A2": "black", "B3": "black", "C1": "white"}
    assert (page.text("black-taken"), page.text("white-taken")) == ("0", "1")
    page.click("1 move back")
    assert page.text("now") == "move 4 B B3 (of 5)"
    page.click("To the start")
    assert page.text("now") == "before the first move (of 5)" and page.text("white-taken") == "0"
    page.click("To the last move")
    page.click("1 move on")
    assert page.text("now") == "move 5 W pass (of 5)"
    page.click("10 moves back")
    assert page.text("now") == "before the first move (of 5)"
    page.click("1 move on")
    assert page.text("now") == "move 1 W A3 (of 5)"


def test_keys_step_through_the_game(page):
    page.choose(4)
    for key, told in [
        (Keys.ARROW_RIGHT, "move 1 B A25"),
        (Keys.PAGE_DOWN, "move 11 W pass"),
        (Keys.ARROW_LEFT, "move 10 B pass"),
        (Keys.END, "move 83 W pass"),
        (Keys.PAGE_UP, "move 73 W pass"),
        (Keys.HOME, "before the first move"),
        (Keys.ARROW_LEFT, "before the first move"),
    ]:
        page.press(key)
        assert page.text("now") == f"{told} (of 83)"


def test_the_slider_goes_to_a_move(page):
    slider = page.driver.find_element(By.ID, "slider")
    assert (slider.get_attribute("min"), slider.get_attribute("max")) == ("0", "5")
    slider.send_keys(Keys.END)
    assert page.text("now") == "move 5 W pass (of 5)" and slider.get_attribute("aria-valuetext") == "move 5 W pass"
    slider.send_keys(Keys.ARROW_LEFT)
    assert page.text("now") == "move 4 B B3 (of 5)"
    page.click("To the start")
    assert slider.get_property("value") == "0"


def test_the_last_move_is_marked(page):
    page.click("1 move on")
    page.click("1 move on")
    [mark] = page.driver.find_elements(By.CSS_SELECTOR, "#stones .mark")
    assert (mark.get_attribute("class"), mark.get_attribute("cx"), mark.get_attribute("cy")) == (
        "mark on-black",
        "52",
        "92",
    )
    page.click("To the last move")
    assert page.driver.find_elements(By.CSS_SELECTOR, "#stones .mark") == []


def test_comments_and_names_are_text(page):
    assert page.text("comment") == HOSTILE and page.text("white") == HOSTILE
    assert page.driver.find_elements(By.TAG_NAME, "img") == [] and page.driver.title == "game.sgf"
    page.click("1 move on")
    assert page.text("comment") == "" and not page.is_shown("comment-head")
    page.click("1 move on")
    assert page.text("comment") == "Two lines,\nthis is one" and page.is_shown("comment-head")


def test_games_are_chosen(page):
    options = [one.text for one in page.driver.find_elements(By.TAG_NAME, "option")]
    assert options == [f"1: Ann - {HOSTILE}", "2: Cy - Di (refused)", "3 (refused)", "4"]
    page.choose(2)
    # A refused game shows the board before its refusal, with the stones that were set up.
    assert page.text("now") == "move 2 B D4 (of 2)"
    assert page.stones() == {"D16": "black", "Q4": "black", "Q16": "white", "D4": "black"}
    assert page.text("verdict") == "goref refuses this game: move 3 is on a stone."
    page.choose(3)
    assert page.text("now") == "There is no board." and not page.is_shown("controls")
    assert page.text("verdict").startswith("goref refuses this game: unexpected byte at ")
    page.choose(4)
    page.click("1 move on")
    assert page.stones() == {"A25": "black"} and page.is_shown("controls")


def test_the_board_as_text(page):
    page.click("To the last move")
    assert page.text("diagram") == " 3 . X .\n 2 X . .\n 1 . . O\n   A B C"
    page.choose(4)
    assert page.text("diagram").splitlines()[-1] == "   " + " ".join(LETTERS)


def test_the_board_has_a_name_and_moves_are_said(page):
    page.click("1 move on")
    assert page.text("picture-title") == "Board: move 1 W A3"
    assert page.driver.find_element(By.ID, "picture").get_attribute("role") == "img"
    assert page.driver.find_element(By.ID, "now").get_attribute("aria-live") == "polite"


def test_the_tab_key_reaches_each_control_and_focus_is_seen(page):
    page.press(Keys.TAB)
    reached = []
    for _ in range(9):
        there = page.driver.switch_to.active_element
        reached.append(there.get_attribute("id") or there.get_attribute("aria-label") or there.tag_name)
        assert page.driver.execute_script("return getComputedStyle(arguments[0]).outlineStyle", there) == "solid"
        there.send_keys(Keys.TAB)
    labels = ["To the start", "10 moves back", "1 move back", "1 move on", "10 moves on", "To the last move"]
    assert reached == ["game", *labels, "slider", "summary"]


@pytest.mark.parametrize("width", [320, 360, 1200])
def test_nothing_stands_out_of_the_window(page, width):
    # Headless windows aren't narrower than 500 points, so the device is told to be.
    page.driver.execute_cdp_cmd(
        "Emulation.setDeviceMetricsOverride", {"width": width, "height": 740, "deviceScaleFactor": 1, "mobile": False}
    )
    try:
        for number in (1, 2, 3, 4):
            page.choose(number)
            assert page.driver.execute_script("return document.documentElement.scrollWidth") <= width
            for button in page.driver.find_elements(By.TAG_NAME, "button"):
                assert number == 3 or button.rect["x"] >= 0 and button.rect["x"] + button.rect["width"] <= width
    finally:
        page.driver.execute_cdp_cmd("Emulation.clearDeviceMetricsOverride", {})


def luminance(colour):
    """What the standard of contrast calls so, of a colour as a browser tells it."""
    parts = [int(part) / 255 for part in colour.strip("rgba()").split(",")[:3]]
    linear = [part / 12.92 if part <= 0.03928 else ((part + 0.055) / 1.055) ** 2.4 for part in parts]
    return 0.2126 * linear[0] + 0.7152 * linear[1] + 0.0722 * linear[2]


@pytest.mark.parametrize("scheme", ["light", "dark"])
def test_colours_of_both_schemes_can_be_read(page, scheme):
    page.driver.execute_cdp_cmd(
        "Emulation.setEmulatedMedia", {"features": [{"name": "prefers-color-scheme", "value": scheme}]}
    )
    try:
        page.choose(2)
        style = "return getComputedStyle(arguments[0])[arguments[1]]"
        paper = luminance(
            page.driver.execute_script(style, page.driver.find_element(By.TAG_NAME, "body"), "backgroundColor")
        )
        assert (paper > 0.5) == (scheme == "light")
        for element in page.driver.find_elements(By.CSS_SELECTOR, "h1, #now, #verdict, dt, dd, th, .colour, summary"):
            ink = luminance(page.driver.execute_script(style, element, "color"))
            assert (max(ink, paper) + 0.05) / (min(ink, paper) + 0.05) >= 4.5
    finally:
        page.driver.execute_cdp_cmd("Emulation.setEmulatedMedia", {"features": []})
