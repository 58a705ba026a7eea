"""An extension of Python's Markdown, for tools/site: heads have the names in addresses that the forges give them."""
import re

from markdown.extensions.toc import TocExtension  # type: ignore


def slugify(head, separator):
    """The name of a head: small letters, no marks, and a line for each blank."""
    return re.sub(r"[^\w\- ]", "", head.lower()).replace(" ", separator)


def makeExtension(**settings):
    return TocExtension(slugify=slugify, **settings)
