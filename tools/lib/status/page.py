"""The page that a browser shows, in one text: its style and its scripts stand in files of their own."""
import os
import re

FOLDER = os.path.join(os.path.dirname(os.path.realpath(__file__)), "html")
PARTS = re.compile(r"/\* ([a-z]+\.(?:css|js)(?: [a-z]+\.js)*) \*/\n")


def page_text() -> str:
    """The page, with the files that it names in their places."""
    return PARTS.sub(lambda found: "".join(map(text_of, found[1].split())), text_of("page.html"))


def text_of(name: str) -> str:
    """A file of the page."""
    with open(os.path.join(FOLDER, name), encoding="utf-8") as file:
        return file.read()
