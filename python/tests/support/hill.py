"""The example that the desk is tried on."""
from processes import TOP

HILL = TOP / "examples" / "hill.csv"
STUDY = '[model]\ntable = "../hill.csv"\n'
