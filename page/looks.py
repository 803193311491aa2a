"""What the test asks of the page's looks: names, roles and contrast of what one sees, and pictures against stored ones."""
import base64
import json
from pathlib import Path
from typing import Any

import stored  # noqa: F401  (it finds the modules of the tests)
from browser import Browser
from program import must

# the least contrast of words, and of large ones
LEAST, LEAST_LARGE = 4.5, 3
# a block of a picture differs where its mean colour is further off than this, of 255; the share of blocks that may
BLOCK, FAR, MOST = 8, 22, 0.03
# (sizes of what is pressed, in pixels)
LEAST_TARGET, LEAST_TARGET_OF_BAR = 24, 32

# Every word that one sees, with its contrast against what lies behind it; of those that are too faint the first ones.
FAINT = """((least, leastLarge) => {
  const numbers = (colour) => {
    const said = colour.match(/[\\d.]+(?:e-\\d+)?/g).map(Number);
    const [red, green, blue, alpha = 1] = said;
    return colour.startsWith("color(") ? [255 * red, 255 * green, 255 * blue, alpha] : [red, green, blue, alpha];
  };
  const over = (top, under) => [0, 1, 2].map((it) => top[it] * top[3] + under[it] * (1 - top[3])).concat(1);
  const linear = (part) => (part / 255 <= 0.04045 ? part / 255 / 12.92 : ((part / 255 + 0.055) / 1.055) ** 2.4);
  const light = ([red, green, blue]) => 0.2126 * linear(red) + 0.7152 * linear(green) + 0.0722 * linear(blue);
  const groundOf = (element) => {
    const grounds = [];
    for (let it = element; it !== null; it = it.parentElement) grounds.push(numbers(getComputedStyle(it).backgroundColor));
    return grounds.reverse().reduce((under, top) => over(top, under), [255, 255, 255, 1]);
  };
  const contrast = (element, ground) => {
    const style = getComputedStyle(element);
    const colour = over(numbers(element instanceof SVGElement ? style.fill : style.color), ground);
    const [high, low] = [light(colour), light(ground)].sort((one, other) => other - one);
    return (high + 0.05) / (low + 0.05);
  };
  const isLarge = ({ fontSize, fontWeight }) => parseFloat(fontSize) >= 24 || (parseFloat(fontSize) >= 18.66 && Number(fontWeight) >= 700);
  const isShown = (element) => element.checkVisibility() && element.closest("[hidden], option, optgroup, script, style, title, svg .aside") === null;
  const walker = document.createTreeWalker(document.body, NodeFilter.SHOW_TEXT);
  const faint = [];
  const seen = new Set();
  while (walker.nextNode()) {
    const element = walker.currentNode.parentElement;
    if (walker.currentNode.textContent.trim() === "" || seen.has(element) || !isShown(element) || element.disabled) continue;
    seen.add(element);
    const wanted = isLarge(getComputedStyle(element)) ? leastLarge : least;
    const found = contrast(element, groundOf(element));
    if (found < wanted) faint.push(`${element.textContent.trim().slice(0, 40)} (${found.toFixed(2)})`);
  }
  return { count: seen.size, faint: faint.slice(0, 5) };
})"""

# What stands in the way of people and machines: two elements of one name, what is too small to be pressed, what is wider than the window.
ODD = """((leastTarget) => {
  const ids = [...document.querySelectorAll("[id]")].map((it) => it.id);
  const twice = ids.filter((id, at) => ids.indexOf(id) !== at);
  const shown = [...document.querySelectorAll("button, select, .button, summary")].filter((it) => it.checkVisibility());
  const small = shown.filter((it) => { const { width, height } = it.getBoundingClientRect(); return Math.min(width, height) < leastTarget; });
  return { twice, small: small.map((it) => it.id || it.textContent).slice(0, 5), wide: document.documentElement.scrollWidth - innerWidth };
})"""

# How much a picture differs from another: the share of blocks whose mean colour is far off; 1 where the sizes differ.
DIFFERENCE = """(async (one, other, block, far) => {
  const pixels = async (text) => {
    const image = new Image();
    image.src = `data:image/png;base64,${text}`;
    await image.decode();
    const canvas = new OffscreenCanvas(Math.ceil(image.width / block), Math.ceil(image.height / block));
    const context = canvas.getContext("2d");
    context.imageSmoothingQuality = "high";
    context.drawImage(image, 0, 0, canvas.width, canvas.height);
    return { size: `${image.width} × ${image.height}`, data: context.getImageData(0, 0, canvas.width, canvas.height).data };
  };
  const [mine, theirs] = [await pixels(one), await pixels(other)];
  if (mine.size !== theirs.size) return 1;
  let count = 0;
  for (let at = 0; at < mine.data.length; at += 4) {
    const off = [0, 1, 2].map((it) => Math.abs(mine.data[at + it] - theirs.data[at + it]));
    count += Number(Math.max(...off) > far);
  }
  return count / (mine.data.length / 4);
})"""

ROLES = {"button", "slider", "combobox", "checkbox", "radio", "link", "textbox", "group", "RootWebArea", "DisclosureTriangle", "MenuListPopup", "option"}


def nodes_of(browser: Browser) -> list[dict[str, Any]]:
    """The nodes of Chromium's own accessibility tree that it doesn't pass over."""
    return [it for it in browser.ask("Accessibility.getFullAXTree")["nodes"] if not it.get("ignored")]


def role_of(node: dict[str, Any]) -> str:
    return str(node.get("role", {}).get("value", ""))


def name_of(node: dict[str, Any]) -> str:
    return str(node.get("name", {}).get("value", ""))


def is_focusable(node: dict[str, Any]) -> bool:
    return any(it["name"] == "focusable" and it["value"].get("value") for it in node.get("properties", []))


def must_be_named(nodes: list[dict[str, Any]]) -> None:
    """Whatever can be worked has a role of its own and a name, and so has each picture; there is one main part, and a heading."""
    worked = [it for it in nodes if is_focusable(it)]
    nameless = [role_of(it) for it in worked if not name_of(it).strip() and role_of(it) != "RootWebArea"]
    must(not nameless, f"without a name: {nameless}")
    odd = {role_of(it) for it in worked} - ROLES
    must(not odd, f"roles of what can be worked: {odd}")
    roles = [role_of(it) for it in nodes]
    must(roles.count("main") == 1 and roles.count("heading") >= 5, f"{roles.count('main')} main parts, {roles.count('heading')} headings")
    pictures = [name_of(it) for it in nodes if role_of(it) in ("img", "image")]
    must(all(pictures), f"pictures: {pictures}")


def must_be_tables(nodes: list[dict[str, Any]], rows: int) -> None:
    """The tables are tables to a reader of the screen, with so many rows below their heads at least, wherever rows are drawn as cards."""
    roles = [role_of(it) for it in nodes]
    heads = roles.count("rowheader")
    must(heads >= rows and roles.count("columnheader") >= 4, f"{heads} rows have a head, of {rows}; {roles.count('columnheader')} columns")


def must_be_seen(browser: Browser) -> None:
    """Every word has contrast, nothing is too small or too wide, and no two elements have one name."""
    seen = browser.run(f"{FAINT}({LEAST}, {LEAST_LARGE})")
    must(seen["count"] > 20 and not seen["faint"], f"too faint: {seen['faint']}")
    odd = browser.run(f"{ODD}({LEAST_TARGET})")
    must(not odd["twice"] and not odd["small"] and odd["wide"] <= 0, f"odd: {odd}")


def difference(browser: Browser, one: Path, other: Path) -> float:
    """The share of blocks in which two pictures differ."""
    # (the page itself may load no pictures)
    browser.open("about:blank")
    texts = [json.dumps(base64.b64encode(path.read_bytes()).decode()) for path in (one, other)]
    return float(browser.run(f"{DIFFERENCE}({texts[0]}, {texts[1]}, {BLOCK}, {FAR})"))
