"""A report of a trip on two pages of A4: the map with its table; the plots, and what of all this is
proved and what isn't.
"""

from __future__ import annotations

from pathlib import Path

from matplotlib.axes import Axes
from matplotlib.backends.backend_pdf import PdfPages
from matplotlib.figure import Figure

from .client import Proof
from .draw import EDGES, Side, map_sheet
from .front import Front, paint_front
from .legend import PROOFS, footer, paint_footer, sheet, wrapped

WIDTH, HEIGHT = 595.0, 842.0
LEADING = 13.0
PROMISE = (
    "Proved, of the proved program: these are all the trade-offs between the two ends over the"
    " weights that the network has, none is missing, none can be bettered in one criterion"
    " without losing in another, and each route has the costs that stand beside it. It holds"
    " whatever the map, and is checked by a machine.",
    "Not proved: what a road weighs (which comes of the extract, its tags and the rules of the"
    " import), which few of the trade-offs have letters, their names, and the drawing.",
)


def write_report(file: Path, side: Side, front: Front) -> None:
    with PdfPages(file) as pages:
        pages.savefig(map_sheet([side], (WIDTH - 2 * EDGES, 0.0), HEIGHT))
        pages.savefig(_second_page(side, front))


def _second_page(side: Side, front: Front) -> Figure:
    figure = Figure(figsize=(WIDTH / 72, HEIGHT / 72))
    columns = 1 if len(front.pairs) == 1 else 2
    rows = -(-len(front.pairs) // columns)
    share = min(0.64, 0.24 * rows if columns == 2 else 0.45)
    plots, words = figure.subfigures(2, 1, height_ratios=[share, 1 - share])
    for part in (plots, words):
        part.set_facecolor("none")
    title = f"{side.title}: all {len(front.routes)} trade-offs"
    plots.suptitle(title, fontsize=11, x=0.02, ha="left")
    margins = {"left": 0.1, "right": 0.96, "top": 0.9, "bottom": 0.14}
    plots.subplots_adjust(**margins, hspace=0.35, wspace=0.3)
    paint_front(plots, front, columns)
    under = sheet(figure)
    _paint_promise(under, side.proof, HEIGHT * (1 - share) - 20)
    paint_footer(under, footer(front.criteria, side.proof, side.network.attribution))
    return figure


def _paint_promise(ax: Axes, proof: Proof, y: float) -> None:
    ax.text(EDGES, y, "What is proved, and what isn't", fontsize=11)
    for text in (PROOFS[proof][0].upper() + PROOFS[proof][1:] + ".", *PROMISE):
        y -= 6
        for line in wrapped(text, WIDTH - 4 * EDGES, 9):
            y -= LEADING
            ax.text(EDGES, y, line, fontsize=9, va="baseline")
