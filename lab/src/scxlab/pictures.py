"""Pictures as texts of SVG, and in pages of HTML."""

from base64 import b64encode
from html import escape


class Picture(str):
    """A text of SVG, which a notebook shows as a picture."""

    def _repr_html_(self) -> str:
        return image_of(self, "a picture")

    def __repr__(self) -> str:
        return f"<picture of {len(self)} characters>"


def image_of(svg: str, caption: str, style: str = "") -> str:
    """The picture as HTML: an image of its own, so that names within two of them don't meet."""
    of_class = f' class="{style}"' if style else ""
    code = b64encode(svg.encode()).decode()
    return f'<img{of_class} src="data:image/svg+xml;base64,{code}" alt="{escape(caption)}">'
