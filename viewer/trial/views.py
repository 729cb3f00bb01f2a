"""What the page shows, read by a script, and what it should show by the answers of `edr ask`."""

import json

from .browser import Page
from .servers import Served

PRINTED = {"Cel": "°C"}


def shown(sample: int | None, unit: str) -> str:
    """A sample as the page shows it."""
    if sample is None:
        return "missing"
    return f"{sample:,} {PRINTED.get(unit, unit)}".replace("-", "−")


def shown_time(instant: str) -> str:
    return f"{instant[:10]} {instant[11:16]} UTC"


def instant(text: str) -> str:
    """A time of the page, whose seconds are 0, as the service writes it."""
    return f"{text[:10]}T{text[11:16]}:00Z"


class View:
    """The page over one service: what is chosen, what is shown, and what `edr ask` answers to the same."""

    def __init__(self, page: Page, served: Served, link: str = ""):
        self.page, self.served = page, served
        self.open(link)

    def open(self, link: str):
        """Opens the page anew at a link, which is what stands behind the `#`."""
        self.page.open("about:blank")
        self.page.open(f"{self.served.url}/viewer/{'#' + link if link else ''}")
        self.settled()

    def settled(self):
        """Waits until nothing loads."""
        self.page.wait(
            "document.getElementById('map').getAttribute('aria-busy') === 'false' && !document.querySelector('[data-kind=loading]')"
            " && new Promise((done) => setTimeout(() => done(true), 350))", "the map", 120)
        self.page.wait("!document.querySelector('[data-kind=loading]')", "the panels", 120)

    @property
    def link(self) -> str:
        return self.page.js("location.hash.slice(1)")

    @property
    def parameter(self) -> str:
        return self.page.js("document.getElementById('parameter').value")

    @property
    def collection(self) -> str:
        return self.page.js("document.querySelector('input[name=collection]:checked').value")

    def level(self, level: int | None = None) -> str:
        """The pair of the query for a level, by default that of the page; empty where there are none."""
        chosen = self.page.js("document.getElementById('level').value") if level is None else level
        return "" if chosen == "" else f"&z={chosen}"

    def line(self) -> list[tuple[int, int]]:
        """The line of the section, by the link."""
        numbers = [int(part) for part in dict(pair.split("=") for pair in self.link.split("&"))["line"].split(",")]
        return list(zip(numbers[::2], numbers[1::2], strict=True))

    @property
    def time(self) -> str:
        return instant(self.page.text("time-now"))

    def geometry(self) -> tuple[list[float], list[float]]:
        """The plot in pixels of the window, as left, top, width and height, and the window of the plane."""
        found = self.page.js("""(() => { const host = document.getElementById("map"); host.scrollIntoView({ block: "center" });
            const box = host.getBoundingClientRect(); const [left, top, ...size] = host.dataset.plot.split(" ").map(Number);
            return [[left + box.left, top + box.top, ...size], host.dataset.window.split(" ").map(Number)]; })()""")
        return found[0], found[1]

    def pixel(self, x: float, y: float) -> tuple[float, float]:
        """Where a point of the plane stands in the window."""
        (left, top, width, height), (west, south, east, north) = self.geometry()
        return left + (x - west) / (east - west) * width, top + (north - y) / (north - south) * height

    def point(self, across: float, up: float) -> tuple[int, int]:
        """The point of the plane at shares of the plot."""
        _, (west, south, east, north) = self.geometry()
        return round(west + across * (east - west)), round(south + up * (north - south))

    def hovered(self, x: float, y: float) -> str:
        """The value that the page tells of a point."""
        self.page.hover(*self.pixel(x, y))
        return self.page.js("document.querySelector('#readout strong')?.textContent")

    def colour(self, x: float, y: float) -> tuple[list[int], tuple[int, int]]:
        """The colour of the picture in the pixel of a point, and the point in the middle of that pixel."""
        (left, top, width, height), (west, south, east, north) = self.geometry()
        at_x, at_y = self.pixel(x, y)
        colour, (box_x, box_y) = self.page.js(f"""(() => {{ const canvas = document.getElementById("map-base");
            const box = canvas.getBoundingClientRect(); const at = [Math.floor({at_x} - box.left), Math.floor({at_y} - box.top)];
            const pixel = new OffscreenCanvas(1, 1).getContext("2d", {{ willReadFrequently: true }});
            pixel.drawImage(canvas, -at[0], -at[1]);
            return [[...pixel.getImageData(0, 0, 1, 1).data].slice(0, 3), [at[0] + 0.5 + box.left, at[1] + 0.5 + box.top]]; }})()""")
        return colour, (round(west + (box_x - left) / width * (east - west)), round(north - (box_y - top) / height * (north - south)))

    def colour_of(self, sample: int) -> list[int]:
        """The colour of a sample by the scale that is shown."""
        ends = "document.getElementById('range-low').valueAsNumber, document.getElementById('range-high').valueAsNumber"
        found = self.page.js(f"import('/viewer/scale.js').then(({{ Scale }}) => new Scale({ends}).colour({sample}))")
        return [int(part) for part in found.removeprefix("rgb(").removesuffix(")").split()]

    def asked(self, x: int, y: int, time: str | None = None, level: int | None = None) -> tuple[int | None, str]:
        """The sample that `edr ask` gives at a point of a grid, at the time and the level of the page or others, and its unit."""
        target = f"/collections/{self.collection}/position?coords=POINT({x} {y})&datetime={time or self.time}&parameter-name={self.parameter}"
        found = self.served.ask(target + self.level(level))
        return found["ranges"][self.parameter]["values"][0], found["parameters"][self.parameter].get("unit", {}).get("symbol", "")

    def series(self) -> list[list[str]]:
        """The rows of the table of the series."""
        return self.page.js("[...document.querySelectorAll('#series-table tbody tr')].map((row) => [...row.cells].map((cell) => cell.textContent))")

    def asked_series(self, query: str) -> list[list[str]]:
        """The rows that `edr ask` gives for the collection, with a query that selects one series."""
        found = self.served.ask(f"/collections/{self.collection}/{query}")
        parameter = self.parameter
        unit = found["parameters"][parameter].get("unit", {}).get("symbol", "")
        return [
            [shown_time(time), shown(sample, unit)]
            for time, sample in zip(found["domain"]["axes"]["t"]["values"], found["ranges"][parameter]["values"], strict=True)
        ]

    def tool(self, name: str):
        self.page.press(f"input[name=tool][value={name}]")

    def draw(self, tool: str, points: list[tuple[float, float]]):
        """Draws by clicks at points of the plane, the last of them a double-click; a box by a drag."""
        self.tool(tool)
        pixels = [self.pixel(*point) for point in points]
        if tool == "box":
            self.page.drag(pixels)
        else:
            for pixel in pixels[:-1]:
                self.page.click(*pixel)
            self.page.click(*pixels[-1], clicks=2)
        self.settled()

    def freehand(self, tool: str, points: list[tuple[float, float]]):
        """Draws with the button held, from point to point of the plane in many steps."""
        self.tool(tool)
        pixels = [self.pixel(*point) for point in points]
        steps = [(a, b, step / 20) for a, b in zip(pixels, pixels[1:]) for step in range(20)]
        self.page.drag([*((a[0] + (b[0] - a[0]) * share, a[1] + (b[1] - a[1]) * share) for a, b, share in steps), pixels[-1]])
        self.settled()

    def message(self, of: str = "map") -> str:
        return self.page.text(f"{of}-message")

    def state(self) -> dict:
        """All that is shown, to compare it after the link was opened anew."""
        texts = ["map-title", "time-now", "series-place", "series-table", "section-place", "range-now"]
        found = {name: self.page.text(name) for name in texts}
        found["collection"], found["parameter"] = self.collection, self.parameter
        found |= {name: self.page.js(f"document.getElementById({json.dumps(name)}).value") for name in ("box-left", "box-top", "width", "level", "station")}
        for canvas in ("map-base", "map-above", "section-canvas"):
            found[canvas] = self.page.js(f"document.getElementById({json.dumps(canvas)}).toDataURL()")
        return found
