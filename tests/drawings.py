"""What each drawing of the program keeps to, so that several can stand on one page."""

import re

SVG = "{http://www.w3.org/2000/svg}"
TAGS = {SVG + tag for tag in ("svg", "title", "desc", "style", "text", "rect", "path", "g")}


def box(node):
    """The place and the size of a rectangle."""
    return tuple(int(node.get(key)) for key in ("x", "y", "width", "height"))


def check_form(tally, name, root, text, outer):
    """Shapes and texts alone, with no id and no script; rules under one class, of light and of dark; texts for readers of screens."""
    tags = {node.tag for node in root.iter()}
    active = [key for node in root.iter() for key in node.attrib if key.startswith("on") or "href" in key or key == "id"]
    tally.check(f"{name}: shapes and texts alone, no script and no id", tags <= TAGS and not active, (tags - TAGS, active))
    rules = re.findall(r"([^{}]+)\{[^{}]*\}", root.findtext(SVG + "style").replace("@media screen and (prefers-color-scheme:dark){", ""))
    selectors = [it.strip() for rule in rules for it in rule.split(",")]
    tally.check(f"{name}: rules under one class", all(it.startswith(f".{outer} ") for it in selectors), selectors[:5])
    tally.check(f"{name}: light and dark", b"prefers-color-scheme:dark" in text and b"@import" not in text, text[:300])
    told = root.tag, root.get("class"), root.get("role"), root.get("version"), root[0].tag, root[1].tag
    tally.check(f"{name}: told to readers of screens", told == (SVG + "svg", outer, "img", "1.1", SVG + "title", SVG + "desc"), told)
    tally.check(f"{name}: its texts for them", root[0].text and root[1].text, (root[0].text, root[1].text))
