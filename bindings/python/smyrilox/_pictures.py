"""Charts as arrays and figures, where numpy and matplotlib are installed. Neither is needed for anything else."""

import importlib
from typing import TYPE_CHECKING, Any, Optional, Tuple

if TYPE_CHECKING:
    from ._chart import Chart

# No mix works, not known, some mix works: in the order of the readings. White means no, so the paper is tinted.
COLOURS = (("#FFFFFF", "no mix works"), ("#8C8C8C", "not known"), ("#000000", "some mix works"))
PAPER = "#F3EEDF"


def needed(module: str, package: str, what: str) -> Any:
    try:
        return importlib.import_module(module)
    except ImportError as why:
        raise ImportError(f"{what} needs {module.split('.')[0]}; Debian's package {package} has it ({why})") from None


def array(chart: "Chart") -> Any:
    numpy = needed("numpy", "python3-numpy", "array()")
    width, height = chart.size
    return numpy.frombuffer(chart.picture(), dtype=numpy.uint8).reshape(height, width).copy()


def plot(chart: "Chart", axes: Any, x: Optional[Tuple[float, float]], y: Optional[Tuple[float, float]]) -> Any:
    pyplot = needed("matplotlib.pyplot", "python3-matplotlib", "plot()")
    colors, patches = (needed("matplotlib." + name, "python3-matplotlib", "plot()") for name in ("colors", "patches"))
    if axes is None:
        _, axes = pyplot.subplots(facecolor=PAPER, layout="constrained")
    width, height = chart.size
    axes.imshow(
        array(chart),
        cmap=colors.ListedColormap([colour for colour, _ in COLOURS]),
        vmin=0,
        vmax=len(COLOURS) - 1,
        extent=(*(x or (0, width)), *(y or (0, height))),
        origin="upper",
        interpolation="nearest",
        aspect="auto" if x or y else "equal",
    )
    legend = [patches.Patch(facecolor=colour, edgecolor="black", label=words) for colour, words in COLOURS]
    axes.legend(handles=legend, loc="upper left", bbox_to_anchor=(1.0, 1.0), frameon=False)
    return axes
