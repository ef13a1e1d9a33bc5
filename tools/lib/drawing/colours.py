"""The colours of pictures."""
from story import ASSOCIATED, AUTHENTICATED, DOZING

STATES = {AUTHENTICATED: "#d9dde3", ASSOCIATED: "#a9d3f0", DOZING: "#9aa9de"}
DARK, PALE, GRID, GREY, LIGHT = "#333333", "#777777", "#e6e8eb", "#8a8f98", "#c4c9d1"
RED, PURPLE, ORANGE, GREEN, YELLOW = "#c8202d", "#7a48d0", "#e07b2a", "#3f9152", "#f2c744"
BLUE, LILAC, LINK = "#4a8fc7", "#b9a0ea", "#1f5fa8"
# On a dark ground: what stands for the ground itself, and the colours of texts, lines and states.
GROUND, INK, RULE, QUIET = "white", "#222222", "#c9ced6", "#f0f0f0"
ON_DARK = {INK: "#e4e6ea", DARK: "#cfd4da", PALE: "#9aa0a8", GRID: "#2b3038", RULE: "#3c434d", QUIET: "#23282f",
           LIGHT: "#4a515b", STATES[AUTHENTICATED]: "#414852", STATES[ASSOCIATED]: "#245273", STATES[DOZING]: "#43508f",
           PURPLE: "#a98bea", RED: "#e5545f", LINK: "#7db7f0"}
DARK_GROUND = "#15181d"


def dark_style():
    """The rules by which a picture is dark where its reader's other windows are."""
    rules = [f'{shape}[fill="{GROUND}"]{{fill:{DARK_GROUND}}}' for shape in ("rect", "circle", "path")]
    rules += [f'[{kind}="{light}"]{{{kind}:{dark}}}' for light, dark in ON_DARK.items() for kind in ("fill", "stroke")]
    return f"@media (prefers-color-scheme: dark){{{''.join(rules)}}}"
