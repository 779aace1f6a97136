"""Modules of many pages, for the measurements."""


def pages(page, size):
    """The page again and again, each time with new names for those that end in NN, up to that many bytes."""
    parts, length = [], 0
    while True:
        text = page.replace("NN", str(len(parts)))
        if length + len(text) > size:
            return "".join(parts)
        parts.append(text)
        length += len(text)
