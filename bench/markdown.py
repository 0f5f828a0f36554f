"""Tables of Markdown."""


def line(cells):
    return "| " + " | ".join(cells) + " |"


def head(titles):
    return f"{line(titles)}\n|" + "---|" * len(titles)
