"""pitplan's module of this name, for the scripts of this repository: it needs nothing but Python's own."""
import sys
from pathlib import Path

sys.path.append(str(Path(__file__).resolve().parent.parent / "python"))

from pitplan.base.machine import free_memory, processors  # noqa: E402, F401
