"""The planner's tools. `docs` of what each does are in its module; `planner/README.md` has a tour.

Where one of the libraries is missing, a tool ends with what to install, and without a traceback.
"""

from __future__ import annotations

import sys
from pathlib import Path
from types import TracebackType

PACKAGES = {
    "distributed": "python3-distributed",
    "fastapi": "python3-fastapi",
    "flask": "python3-flask",
    "matplotlib": "python3-matplotlib",
    "numpy": "python3-numpy",
    "osmium": "python3-pyosmium",
    "prometheus_client": "python3-prometheus-client",
    "pyproj": "python3-pyproj",
    "scipy": "python3-scipy",
    "starlette": "python3-starlette",
    "uvicorn": "python3-uvicorn",
}


def _tell_missing(
    kind: type[BaseException], fault: BaseException, trace: TracebackType | None
) -> None:
    name = getattr(fault, "name", None) or ""
    package = PACKAGES.get(name.partition(".")[0])
    if not isinstance(fault, ModuleNotFoundError) or package is None:
        sys.__excepthook__(kind, fault, trace)
        return
    tool = Path(sys.argv[0]).name
    print(f"{tool}: a library is missing: apt-get install {package}", file=sys.stderr)


sys.excepthook = _tell_missing
