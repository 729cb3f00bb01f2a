"""Checks of the keyboard: that each control is reached by Tab, shows its focus, and does its work by keys."""

from .tally import Tally
from .views import View, shown

# The controls that are seen, in the order of the page; a group of radio buttons is one, by the button that is chosen.
CONTROLS = """[...document.querySelectorAll("a[href], button, input, select, summary, [tabindex='0']")]
  .filter((element) => element.checkVisibility({ visibilityProperty: true }) && !element.disabled && (element.type !== "radio" || element.checked))
  .map(NAME)"""
NAME = "((element) => element.id || element.name || element.className || element.closest('[id]').id + ' ' + element.tagName)"
FOCUSED = f"{NAME}(document.activeElement)"
# Whether the element with the focus, or the label round it, has an outline.
OUTLINED = """[document.activeElement, document.activeElement.closest("label")].some((element) =>
  element && getComputedStyle(element).outlineStyle !== "none" && parseFloat(getComputedStyle(element).outlineWidth) >= 2)"""


def check_tabs(tally: Tally, view: View, name: str):
    """Tab goes through all controls in the order of the page."""
    page = view.page
    page.js("document.activeElement.blur(); getSelection().removeAllRanges(); window.scrollTo(0, 0)")
    wanted = page.js(CONTROLS.replace("NAME", NAME))
    page.js("document.querySelector('.skip').focus()")
    found = []
    for _ in wanted:
        found.append(page.js(FOCUSED))
        tally.check(f"{name}: the focus on {found[-1]} is seen", page.js(OUTLINED))
        page.key("Tab")
    tally.equal(f"{name}: the order of Tab", found, wanted)


def focus(view: View, element: str):
    """Goes to an element by Tab."""
    page = view.page
    page.js("document.querySelector('.skip').focus()")
    for _ in range(60):
        if page.js(FOCUSED) == element:
            return
        page.key("Tab")
    raise AssertionError(f"{element} isn't reached by Tab")


def check_time_keys(tally: Tally, view: View, name: str, times: list[str]):
    """Arrows, Home and End on the slider; Enter on play."""
    page = view.page
    focus(view, "time")
    page.key("Home")
    view.settled()
    tally.equal(f"{name}: Home on the slider", view.time, times[0])
    page.key("ArrowRight")
    view.settled()
    tally.equal(f"{name}: the right arrow on the slider", view.time, times[1])
    tally.equal(f"{name}: the slider tells its time", page.js("document.getElementById('time').getAttribute('aria-valuetext')"), page.text("time-now"))
    page.key("End")
    view.settled()
    tally.equal(f"{name}: End on the slider", view.time, times[-1])
    focus(view, "play")
    page.key("Enter")
    page.wait(f"document.getElementById('time-now').textContent !== {page.text('time-now')!r}", "play")
    tally.equal(f"{name}: it plays", page.js("document.getElementById('play').getAttribute('aria-label')"), "Pause")
    page.key("Enter")
    tally.equal(f"{name}: it stands still", page.js("document.getElementById('play').getAttribute('aria-label')"), "Play")
    view.settled()


def check_map_keys(tally: Tally, view: View, name: str):
    """Arrows and Enter on the map: the value at the cursor, the series, a line, an area and a box."""
    page = view.page
    _check_cursor(tally, view, name)
    _choose_tool(view, "line", 3)
    focus(view, "map-above")
    page.key("Enter")
    page.key("ArrowLeft", times=2)
    page.key("Enter", times=2)
    view.settled()
    tally.check(f"{name}: a line by keys", "line=" in view.link and "From A to B" in page.text("section-place"), view.link)
    _choose_tool(view, "area", 2)
    focus(view, "map-above")
    page.key("Enter")
    page.key("ArrowRight")
    page.key("Enter")
    page.key("ArrowUp")
    page.key("Enter")
    page.key("Escape")
    tally.equal(f"{name}: Escape gives up", page.js("document.getElementById('draft').hidden"), True)
    _choose_tool(view, "box", 1)
    focus(view, "map-above")
    page.key("ArrowLeft")
    page.key("Enter")
    page.key("ArrowRight")
    page.key("Enter")
    view.settled()
    tally.check(f"{name}: a box by keys", "box=" in view.link, view.link)
    focus(view, "whole")
    page.key("Enter")
    view.settled()
    tally.check(f"{name}: Enter gives the whole extent back", "box=" not in view.link, view.link)


def _check_cursor(tally: Tally, view: View, name: str):
    page = view.page
    _choose_tool(view, "point", 0)
    focus(view, "map-above")
    page.key("ArrowUp")
    page.key("ArrowLeft", shift=True)
    page.key("ArrowDown", shift=True)
    page.key("ArrowRight")
    page.key("Enter")
    view.settled()
    x, y = (int(part) for part in dict(pair.split("=") for pair in view.link.split("&"))["point"].split(","))
    sample, unit = view.asked(x, y)
    tally.equal(f"{name}: the value at the cursor, {x} {y}", page.js("document.querySelector('#readout strong').textContent"), shown(sample, unit))
    wanted = view.asked_series(f"position?coords=POINT({x} {y})&parameter-name={view.parameter}")
    tally.equal(f"{name}: Enter on the map gives the series", view.series(), wanted)


def _choose_tool(view: View, tool: str, steps: int):
    """Goes to the tools, and by the arrows to one of them."""
    focus(view, "tool")
    view.page.js("document.querySelector('input[name=tool][value=point]').focus()")
    view.page.key("Space")
    view.page.key("ArrowRight", times=steps)
    assert view.page.js("document.querySelector('input[name=tool]:checked').value") == tool


def check_choices_by_keys(tally: Tally, view: View, name: str):
    """The details open by Enter, the range of colours and the box are typed, the chart's cursor sets the time."""
    page = view.page
    for field in ("range-field", "box-field"):
        focus(view, f"{field} SUMMARY")
        page.key("Enter")
        tally.equal(f"{name}: Enter opens {field}", page.js(f"document.getElementById({field!r}).open"), True)
    focus(view, "range-high")
    page.key("ArrowUp")
    page.key("Tab")
    view.settled()
    tally.check(f"{name}: the range of colours by keys", "range=" in view.link, view.link)
    focus(view, "range-automatic")
    page.key("Enter")
    view.settled()
    tally.check(f"{name}: Enter makes it automatic again", "range=" not in view.link, view.link)
    for side, text in {"box-left": "0", "box-right": "100", "box-bottom": "0", "box-top": "100"}.items():
        focus(view, side)
        page.send("Input.insertText", text=text)
    focus(view, "box-show")
    page.key("Enter")
    view.settled()
    tally.check(f"{name}: a box by its numbers", "box=0,0,100,100" in view.link, view.link)
    focus(view, "pan-right")
    page.key("Enter")
    view.settled()
    tally.check(f"{name}: it moves by half of itself", "box=50,0,150,100" in view.link, view.link)
    focus(view, "whole")
    page.key("Enter")
    view.settled()
    focus(view, "series-chart")
    page.key("Home")
    page.key("Home")
    page.key("Enter")
    view.settled()
    tally.equal(f"{name}: Enter on the chart sets the time", page.text("time-now"), view.series()[0][0])
