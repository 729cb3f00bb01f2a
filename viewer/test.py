"""Tries the page in Chromium, over real daemons behind nginx, and compares what it shows with the answers of `edr ask`.

python3 viewer/test.py [--edr PROGRAM] [--edrd PROGRAM] [--out FOLDER] [--only PART]

It needs Debian's `chromium` and `nginx`, and the built programs. Pictures of the page, for people to look at, come into FOLDER
(viewer/out). Its last line is `N passed, M failed`."""

import argparse
import os
import shutil
import sys
import tempfile

from trial.browser import Browser
from trial.feeds import LEVELS, large_feed, weather_feed
from trial.hands import check_choices_by_keys, check_map_keys, check_tabs, check_time_keys
from trial.looks import check_looks
from trial.servers import TOP, Served, made_feed
from trial.tally import Tally
from trial.values import check_nodes, check_section, check_series, check_station, check_stations_at
from trial.views import View, shown, shown_time

FORECAST_TIMES = ["2024-01-01T00:00:00Z", "2024-01-01T01:00:00Z"]
GAUGES = {"A": (0, 0), "B": (100, 0), "C": (4000, 1500)}


class Trial:
    """What all parts share: the browser, the programs, the folders."""

    def __init__(self, options: argparse.Namespace, folder: str):
        self.programs = {"edr": options.edr, "edrd": options.edrd}
        self.folder, self.pictures = folder, options.out
        self.browser = Browser(folder)
        self.tally = Tally()
        self.served: list[Served] = []

    def serve(self, name: str, feed: str, **given) -> Served:
        self.served.append(Served(f"{self.folder}/{name}", feed, self.programs, **given))
        return self.served[-1]

    def page(self):
        page = self.browser.page()
        page.size(1280, 800)
        page.scheme("light")
        return page

    def end(self):
        self.browser.end()
        for served in self.served:
            served.end()


def try_forecast(trial: Trial):
    """A small grid of two times: values, series, section, area, link, keys, looks."""
    tally, page = trial.tally, trial.page()
    view = View(page, trial.serve("forecast", f"{TOP}/examples/feed.jsonl", editions=2))
    tally.equal("forecast: the edition", page.text("edition"), "Edition 2")
    for place, time in enumerate(FORECAST_TIMES):
        page.js(f"(() => {{ const slider = document.getElementById('time'); slider.value = {place}; slider.dispatchEvent(new Event('input')); }})()")
        view.settled()
        tally.equal("forecast: the time of the slider", view.time, time)
        check_nodes(tally, view, "forecast", [(0.2, 0.3), (0.5, 0.3), (0.8, 0.3), (0.2, 0.7), (0.5, 0.7), (0.8, 0.7)])
    check_series(tally, view, "forecast", 0, 0)
    check_series(tally, view, "forecast", 100, 100)
    view.draw("line", [(0, 0), (200, 100)])
    check_section(tally, view, "forecast", [{"at": place, "told": shown_time(time), "time": time} for place, time in enumerate(FORECAST_TIMES)])
    check_link(trial, view, "forecast")
    check_looks(tally, view, "forecast", trial.pictures)
    view.freehand("line", [(0, 0), (60, 90), (120, 20), (200, 100)])
    tally.check("forecast: a line that is drawn with the button held", len(view.line()) > 2, view.line())
    tally.check("forecast: its section", "From A to B" in page.text("section-place"), page.text("section-place"))
    view.draw("area", [(0, 0), (200, 0), (0, 100)])
    tally.equal("forecast: inside the area", view.hovered(0, 100), "25 °C")
    tally.equal("forecast: outside the area", view.hovered(200, 100), "outside the area")
    check_link(trial, view, "forecast area")
    tally.quiet("forecast", page)
    page.close()


def check_link(trial: Trial, view: View, name: str):
    """The link opens the same in another page."""
    view.page.hover(2, 2)
    view.settled()
    other = View(trial.page(), view.served, view.link)
    other.page.hover(2, 2)
    wanted, found = view.state(), other.state()
    for of, value in wanted.items():
        trial.tally.check(f"{name}: the link brings {of} back", found[of] == value, f"{view.link}: {found[of][:200]} {value[:200]}")
    trial.tally.quiet(f"{name}: the link", other.page)
    other.page.close()


def try_keys(trial: Trial):
    """The small grid by keys alone."""
    tally, page = trial.tally, trial.page()
    view = View(page, trial.serve("keys", f"{TOP}/examples/feed.jsonl", editions=2))
    check_tabs(tally, view, "keys")
    check_time_keys(tally, view, "keys", FORECAST_TIMES)
    check_map_keys(tally, view, "keys")
    check_choices_by_keys(tally, view, "keys")
    check_tabs(tally, view, "keys, all shown")
    tally.quiet("keys", page)
    page.close()


def try_gauges(trial: Trial):
    """Stations with a missing value, and with times of their own."""
    tally, page = trial.tally, trial.page()
    view = View(page, trial.serve("gauges", f"{TOP}/examples/stations.jsonl"))
    page.js("document.getElementById('time').focus()")
    for _ in range(3):
        check_stations_at(tally, view, "gauges", {"B": GAUGES["B"], "C": GAUGES["C"]})
        page.key("ArrowRight")
        view.settled()
    check_station(tally, view, "gauges", "C", GAUGES["C"])
    page.js("document.getElementById('time').focus()")
    page.key("Home")
    view.draw("line", [(0, 0), (4000, 1500)])
    tally.equal("gauges: the section", page.text("section-place"), "From A to B, 4,272 m. Stations in the corridor, at the time of the map")
    check_link(trial, view, "gauges")
    check_looks(tally, view, "gauges", trial.pictures)
    tally.quiet("gauges", page)
    page.close()


def try_made(trial: Trial):
    """A grid of 520,000 nodes and forty stations of 300 times."""
    tally, page = trial.tally, trial.page()
    feed = f"{trial.folder}/made.jsonl"
    made_feed(feed, trial.programs)
    view = View(page, trial.serve("made", feed))
    check_nodes(tally, view, "made", [(0.013, 0.98), (0.25, 0.5), (0.5, 0.25), (0.777, 0.61), (0.99, 0.02)])
    view.draw("box", [(20000, 20000), (30000, 26000)])
    check_nodes(tally, view, "made, a box", [(0.1, 0.1), (0.333, 0.5), (0.9, 0.77)])
    check_series(tally, view, "made", 25000, 22000)
    page.press("#whole")
    view.settled()
    view.draw("line", [(5000, 5000), (50000, 30000), (98000, 40000)])
    tally.check("made: the section", "From A to B" in page.text("section-place"), page.text("section-place"))
    check_link(trial, view, "made")
    check_looks(tally, view, "made", trial.pictures)
    page.press("input[value=sites]")
    view.settled()
    check_station(tally, view, "made sites", "s07", (7000, 3500))
    page.js("document.getElementById('time').focus()")
    page.key("PageUp")
    view.settled()
    check_stations_at(tally, view, "made sites", {"s03": (3000, 1500), "s39": (39000, 19500)})
    view.draw("line", [(2000, 2000), (30000, 14000)])
    check_looks(tally, view, "made sites", trial.pictures)
    tally.quiet("made", page)
    page.close()


def try_weather(trial: Trial):
    """Levels, instances, two parameters, and axes that aren't even; masts with a level; a collection without data."""
    tally, page = trial.tally, trial.page()
    feed = f"{trial.folder}/weather.jsonl"
    weather_feed(feed)
    served = trial.serve("weather", feed)
    view = View(page, served, "collection=weather&level=500&time=2024-06-01T12:00:00Z&line=300000,5250000,470000,5340000")
    check_nodes(tally, view, "weather", [(0.1, 0.2), (0.52, 0.53), (0.8, 0.5), (0.9, 0.9), (0.96, 0.1)])
    check_series(tally, view, "weather", 352500, 5270000)
    check_section(tally, view, "weather", [{"at": level, "told": f"{level:,} m", "level": level} for level in LEVELS])
    check_link(trial, view, "weather")
    check_looks(tally, view, "weather", trial.pictures)
    view.open("collection=weather&parameter=wind&level=2500&instance=2024-06-01T00")
    x, y = view.point(0.4, 0.4)
    found = served.ask(f"/collections/weather/instances/2024-06-01T00/position?coords=POINT({x} {y})&datetime={view.time}&z=2500")
    tally.equal("weather: an older instance", view.hovered(x, y), shown(found["ranges"]["wind"]["values"][0], "m/s"))
    view.open("collection=masts")
    check_station(tally, view, "masts", "M3", (455000, 5270000))
    check_looks(tally, view, "masts", trial.pictures)
    view.open("collection=empty")
    tally.equal("weather: a collection without data", view.message(), "This collection has no data yet.")
    check_looks(tally, view, "empty", trial.pictures)
    tally.quiet("weather", page)
    page.close()


def try_large(trial: Trial):
    """More nodes and more stations than a reply may have."""
    tally, page = trial.tally, trial.page()
    feed = f"{trial.folder}/large.jsonl"
    large_feed(feed)
    view = View(page, trial.serve("large", feed), "collection=fine")
    tally.check("large: it says that this is the middle", "its middle" in page.text("map-note"), page.text("map-note"))
    check_nodes(tally, view, "large", [(0.1, 0.9)])
    page.js("document.getElementById('box-field').open = true")
    page.press("#pan-right")
    view.settled()
    check_nodes(tally, view, "large, moved", [(0.1, 0.9)])
    page.open("about:blank")
    view.open("collection=fine&box=0,0,1000,1000&line=0,0,74000,69000")
    tally.check("large: a section in pieces", " and " in page.text("section-asked"), page.text("section-asked"))
    view.open("collection=many")
    tally.check("large: too many stations", "TooLarge (26), status 413" in page.text("map-note"), page.text("map-note"))
    check_station(tally, view, "large", "N2550", (50000, 25000))
    check_looks(tally, view, "many", trial.pictures)
    tally.quiet("large", page, but="status of 413")
    page.close()


def try_faults(trial: Trial):
    """What the page says when the service refuses, has nothing, is slow, or is gone; and when a new edition comes."""
    tally, page = trial.tally, trial.page()
    served = trial.serve("faults", f"{TOP}/examples/stations.jsonl")
    view = View(page, served, "collection=nothing")
    tally.check("faults: a refusal in its own words", "UnknownCollection (18), status 404" in view.message(), view.message())
    check_looks(tally, view, "refused", trial.pictures)
    view.open("collection=gauges&line=2000,0,3000,0&width=10")
    tally.check("faults: an empty section", "Nothing lies there." in view.message("section") and "NoSamples (25)" in view.message("section"), view.message("section"))
    check_looks(tally, view, "nothing", trial.pictures)
    tally.quiet("faults", page, but="status of 404")
    served.end_daemon()
    page.press("input[name=collection]")
    view.settled()
    tally.check("faults: the service is gone", "The service doesn’t answer." in view.message() and "502" in view.message(), view.message())
    check_looks(tally, view, "gone", trial.pictures)
    tally.quiet("faults, gone", page, but="status of 502")
    try_slow(trial, page)
    page.close()


def try_slow(trial: Trial, page):
    """A slow service is told to be loading."""
    served = trial.serve("slow", f"{TOP}/examples/feed.jsonl", editions=2)
    view = View(page, served)
    page.send("Fetch.enable", patterns=[{"urlPattern": "*/collections/*"}])  # holds what is asked
    page.press("input[name=collection]")
    page.wait("document.querySelector('#map-message[data-kind=loading]') !== null", "loading is told")
    trial.tally.check("slow: it says that it loads", "Loading" in page.text("map-message"), page.text("map-message"))
    page.screenshot(f"{trial.pictures}/loading-1280-light.png")
    page.send("Fetch.disable")
    view.settled()
    trial.tally.equal("slow: and then it shows", view.hovered(0, 0), "12 °C")


def try_editions(trial: Trial):
    """A new edition takes the place of the old one at the next request."""
    tally, page = trial.tally, trial.page()
    served = trial.serve("editions", f"{TOP}/examples/feed.jsonl", every=6)
    view = View(page, served)
    tally.equal("editions: the first", page.text("edition"), "Edition 1")
    tally.equal("editions: a value of the first", view.hovered(0, 0), "10 °C")
    served.wait(2)
    page.click(*view.pixel(0, 0))
    page.wait("document.getElementById('edition').textContent === 'Edition 2'", "the second edition")
    view.settled()
    tally.equal("editions: the value of the second", view.hovered(0, 0), "12 °C")
    tally.equal("editions: the series of the second", [row[1] for row in view.series()], ["12 °C", "22 °C"])
    tally.quiet("editions", page)
    page.close()


PARTS = {
    "forecast": try_forecast, "keys": try_keys, "gauges": try_gauges, "made": try_made, "weather": try_weather, "large": try_large,
    "faults": try_faults, "editions": try_editions,
}


def main() -> int:
    options = read_words()
    shutil.rmtree(options.out, ignore_errors=True)
    os.makedirs(options.out)
    with tempfile.TemporaryDirectory(prefix="edr-viewer-") as folder:
        os.chmod(folder, 0o755)  # nginx serves as another user
        trial = Trial(options, folder)
        try:
            for name, part in PARTS.items():
                if options.only in (None, name):
                    part(trial)
                    print(f"{name}: {trial.tally.passed} passed, {trial.tally.failed} failed so far", flush=True)
        finally:
            trial.end()
    print(f"{trial.tally.passed} passed, {trial.tally.failed} failed")
    return 1 if trial.tally.failed else 0


def read_words() -> argparse.Namespace:
    words = argparse.ArgumentParser(description=__doc__, formatter_class=argparse.RawDescriptionHelpFormatter)
    words.add_argument("--edr", default=f"{TOP}/crates/edr/out/edr")
    words.add_argument("--edrd", default=f"{TOP}/crates/edrd/out/edrd")
    words.add_argument("--out", default=f"{TOP}/viewer/out")
    words.add_argument("--only", choices=PARTS)
    return words.parse_args()


if __name__ == "__main__":
    sys.exit(main())
