"""The kinds of files that `pitplan export` writes."""
MINELIB = "minelib"  # of the model alone, whatever pits it has
KINDS = ("dxf", "vtu", "csv", "gpkg", MINELIB)
