"""How Sphinx makes the manual, in a copy of the pages that tools/manual.py writes. The reference of pitplan is written first."""
import importlib
import os
import re
import sys
from pathlib import Path

from pygments.lexers.special import TextLexer

HERE = Path(__file__).resolve().parent
PYTHON = Path(os.environ["MANUAL_PYTHON"])  # the folder of pitplan's source
sys.path.insert(0, str(PYTHON))
sys.dont_write_bytecode = True

project = "Pontihaw"
version = release = os.environ["MANUAL_VERSION"]
copyright = "the maintainers of Pontihaw"
extensions = ["myst_parser", "sphinx.ext.autodoc", "sphinx.ext.napoleon"]
root_doc = "index"
myst_heading_anchors = 6
highlight_language = "none"  # blocks are of shells, tables and formulas side by side
smartquotes = False
suppress_warnings = ["myst.header"]  # a page may leave out a level
default_role = "code"
napoleon_use_rtype = False
napoleon_use_ivar = True
autodoc_typehints = "signature"
autodoc_member_order = "bysource"
autodoc_preserve_defaults = True  # else an address of this run may stand there
html_theme = "alabaster"
html_theme_options = {
    "description": "ultimate pits of open-pit mines, proved",
    "page_width": "1160px",
    "sidebar_width": "250px",
    "body_max_width": "none",
    "fixed_sidebar": True,
    "show_powered_by": False,
    "show_relbars": True,
    "font_family": "sans-serif",
    "head_font_family": "sans-serif",
    "code_font_size": "0.85em",
}
html_sidebars = {"**": ["about.html", "searchbox.html", "navigation.html"]}
html_static_path = ["manual.css"]
html_css_files = ["manual.css"]
html_title = f"Pontihaw {version}"
html_copy_source = html_show_sourcelink = html_show_sphinx = False
html_domain_indices = False

REFERENCE = os.environ["MANUAL_REFERENCE"].split()  # packages and modules of pitplan


def heading(text):
    """A heading in reStructuredText."""
    return f"{text}\n{'=' * len(text)}\n\n"


def of_package(name):
    """The page of a package: what it is, and each of its public names."""
    return heading(f"pitplan.{name}") + f".. automodule:: pitplan.{name}\n   :members:\n"


def of_names(pitplan):
    """The page of the names that `import pitplan as pp` gives, each with the package that has it."""
    homes = {}
    for package in REFERENCE:
        for name in getattr(importlib.import_module(f"pitplan.{package}"), "__all__", ()):
            homes.setdefault(name, package)
    lines = [
        heading("pitplan") + ".. automodule:: pitplan\n",
        "What ``import pitplan as pp`` gives:\n",
    ]
    for name in pitplan.__all__:
        target = "views.pictures" if name == "plot" else f"{homes[name]}.{name}"
        lines.append(f"- ``pp.{name}``: :py:obj:`pitplan.{target}`")
    return "\n".join(lines) + "\n"


def write_reference(app, config):
    """Writes the pages of the reference, beside the others."""
    if not REFERENCE:
        return
    folder = HERE / "reference"
    folder.mkdir()
    (folder / "pitplan.rst").write_text(of_names(importlib.import_module("pitplan")))
    for name in REFERENCE:
        (folder / f"{name}.rst").write_text(of_package(name))


def short(app, what, name, thing, options, signature, returns):
    """A signature without the modules of its types."""

    def bare(text):
        return re.sub(r"~?\b(?:[A-Za-z_]\w*\.)+(?=[A-Za-z])", "", text).replace("<factory>", "...")

    return signature and bare(signature), returns and bare(returns)


def setup(app):
    app.add_lexer("antt", TextLexer)
    app.connect("config-inited", write_reference)
    app.connect("autodoc-process-signature", short)
