"""Checks of looks: widths, dark and light, contrast; and pictures for people to look at."""

import os

from .tally import Tally
from .views import View

SIZES = ((1280, 800), (360, 740))
SCHEMES = ("light", "dark")

# The texts whose contrast with what is behind them is below 4.5 to 1, or 3 to 1 where they are large, as lists of text and contrast.
FAINT = """(() => {
  const canvas = new OffscreenCanvas(1, 1).getContext("2d", { willReadFrequently: true });
  const parts = (colour) => { canvas.clearRect(0, 0, 1, 1); canvas.fillStyle = colour; canvas.fillRect(0, 0, 1, 1); return [...canvas.getImageData(0, 0, 1, 1).data]; };
  const light = ([red, green, blue]) => [red, green, blue].map((part) => part / 255).map((part) => part <= 0.04045 ? part / 12.92 : ((part + 0.055) / 1.055) ** 2.4)
    .reduce((sum, part, place) => sum + part * [0.2126, 0.7152, 0.0722][place], 0);
  const behind = (element) => { for (let at = element; at; at = at.parentElement) { const found = parts(getComputedStyle(at).backgroundColor); if (found[3] === 255) return found; } return [255, 255, 255]; };
  const faint = [];
  for (const element of document.querySelectorAll("body *")) {
    const own = [...element.childNodes].filter((node) => node.nodeType === 3).map((node) => node.data.trim()).join("");
    if (!own || !element.checkVisibility() || element.closest(":disabled, noscript, script")) continue;
    const style = getComputedStyle(element);
    const colour = element instanceof SVGElement ? style.fill : style.color;
    const [one, other] = [light(parts(colour)), light(behind(element))].sort((a, b) => b - a);
    const contrast = (one + 0.05) / (other + 0.05);
    if (contrast < (parseFloat(style.fontSize) >= 24 ? 3 : 4.5)) faint.push([own.slice(0, 40), Math.round(contrast * 100) / 100]);
  }
  return faint; })()"""

# The elements that reach beyond the window, or beyond the panel or the card in which they stand, by their names.
WIDE = """[...document.querySelectorAll("body *")].filter((element) => element.checkVisibility() && !element.closest(".table-host, .unseen")
  && [WIDTH, ...[".panel", ".card"].map((of) => element.closest(of)?.getBoundingClientRect().right ?? WIDTH)]
    .some((right) => element.getBoundingClientRect().right > right + 0.5)).map((element) => element.id || element.className || element.tagName)"""


def check_looks(tally: Tally, view: View, name: str, folder: str):
    """Pictures at both sizes in both schemes, and what can be reckoned of them."""
    os.makedirs(folder, exist_ok=True)
    papers = {}
    for width, height in SIZES:
        view.page.size(width, height)
        for scheme in SCHEMES:
            view.page.scheme(scheme)
            view.page.hover(2, 2)
            view.settled()
            where = f"{name}, {width} wide, {scheme}"
            tally.equal(f"{where}: the width of the page", view.page.js("document.documentElement.scrollWidth"), width)
            tally.equal(f"{where}: nothing beyond the window or its panel", view.page.js(WIDE.replace("WIDTH", str(width))), [])
            tally.equal(f"{where}: contrast", view.page.js(FAINT), [])
            papers[scheme] = view.page.js("getComputedStyle(document.body).backgroundColor + document.getElementById('map-base').toDataURL()")
            view.page.screenshot(f"{folder}/{name.replace(' ', '-')}-{width}-{scheme}.png")
        tally.check(f"{name}, {width} wide: dark isn't light", papers["light"] != papers["dark"])
    view.page.scheme("light")
    view.page.size(*SIZES[0])
    view.settled()
