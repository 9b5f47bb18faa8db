"""The shapes and letters of the pictures in docs/pictures, as SVG: for tools/picture and tools/diagrams.py."""

from xml.sax.saxutils import escape

COLOURS = ("#1f6fb2", "#b85c00", "#2e7d32", "#7b3fa0", "#00796b", "#ad1457", "#6d4c41", "#455a64")
DARK, GREY, PALE = "#222222", "#777777", "#f5f7fa"
# How wide a letter is, of the usual size and of a small one.
LETTER, SMALL = 6.7, 5.5
FONT = "DejaVu Sans Mono, Menlo, Consolas, monospace"


def coordinates(values):
    return " ".join(f'{name.replace("_", "-")}="{value if isinstance(value, str) else round(value, 1)}"'
                    for name, value in values.items())


def shape(tag, title=None, **values):
    inside = f"<title>{escape(title)}</title>" if title else ""
    return f"<{tag} {coordinates(values)}>{inside}</{tag}>" if inside else f"<{tag} {coordinates(values)}/>"


def text(x, y, words, size=11, colour=DARK, weight="normal", style="normal"):
    return (f'<text {coordinates({"x": x, "y": y, "font_size": size, "fill": colour})} font-weight="{weight}" '
            f'font-style="{style}" xml:space="preserve">{escape(words)}</text>')


def opening(width, height, name):
    """The first lines of a picture."""
    return (f'<svg xmlns="http://www.w3.org/2000/svg" width="{width:.0f}" height="{height:.0f}" viewBox="0 0 '
            f'{width:.0f} {height:.0f}" font-family="{FONT}">\n<title>{escape(name)}</title>')
