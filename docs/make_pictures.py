#!/usr/bin/python3
"""Makes the pictures of docs/PLANNING.md and docs/DESK.md anew, from examples/hill.csv and the study.toml that the document shows.

    docs/make_pictures.py [--desk] [FOLDER]

writes hill-slopes.png, hill-pit-by-pit.png, hill-plan.png, hill-section.png, hill-schedule-years.png, hill-schedule-section.png,
hill-report.png and hill-design.png, and of the page in a headless Chromium hill-page.png, hill-page-pushbacks.png, hill-page-design.png
and hill-likelihood.png, into FOLDER (default: docs/pictures); and desk-prices.png, desk-slopes.png and desk-run.png, with --desk
these alone. Needs `pit` (PIT, or the repository's build) and the packages of python/packages.
"""
import base64
import re
import shutil
import subprocess
import sys
import tempfile
from pathlib import Path

from PIL import Image

TOP = Path(__file__).resolve().parent.parent
MOST = 150_000  # bytes of a picture in the repository
COLOURS = 160  # enough for flat areas, small swatches and lettering, a third of the bytes


def text_of(name):
    """The text that stands below `cat NAME` in PLANNING.md."""
    lines = (TOP / "docs/PLANNING.md").read_text().split("\n")
    start = lines.index(f"    $ cat {name}") + 1
    end = next(
        i
        for i in range(start, len(lines))
        if lines[i].startswith("    $ ") or lines[i] and not lines[i].startswith("    ")
    )
    return "\n".join(line[4:] for line in lines[start:end])


def pitplan(*words, may_refuse=False):
    """Runs a command and gives the pictures and pages that it prints; one that compares may say no."""
    ran = subprocess.run(
        [str(TOP / "bin/pitplan"), *map(str, words)], stdout=subprocess.PIPE, text=True
    )
    if ran.returncode > may_refuse:
        sys.exit(f"pitplan {' '.join(map(str, words))} ended with status {ran.returncode}")
    return [Path(path) for path in re.findall(r"\S+\.(?:png|html)", ran.stdout)]


# What is done on a page before it is photographed, and which part of it is taken: all, or from one element down to the end of another.
CHOOSE = "const box = document.getElementById('what'); box.value = arguments[0]; return choose(+arguments[0])"
CUT = "const way = document.getElementById('way'); way.value = arguments[0]; way.onchange(); if (arguments[1] >= 0) { const at = document.getElementById('cut'); at.value = arguments[1]; at.oninput() }"
HIDE = "document.getElementById('section').hidden = true; dispatchEvent(new Event('resize'))"
PART = """const box = id => document.getElementById(id).getBoundingClientRect(), from = box(arguments[0]), to = box(arguments[1]);
return [from.left + scrollX, from.top + scrollY, Math.max(from.right, to.right) - from.left, to.bottom - from.top]"""


def photographed(browser, page, target, steps, part=None):
    """A page as a browser shows it, after some steps."""
    from browsers import opened

    opened(browser, page)
    for script, *words in steps:
        browser.execute_script(script, *words)
    clip = (
        browser.execute_script(PART, *part)
        if part
        else browser.execute_script(
            "return [0, 0, innerWidth, Math.min(document.documentElement.scrollHeight, 1200)]"
        )
    )
    shot = browser.execute_cdp_cmd(
        "Page.captureScreenshot",
        {
            "captureBeyondViewport": True,
            "clip": dict(zip(("x", "y", "width", "height"), clip), scale=1),
        },
    )
    target.write_bytes(base64.b64decode(shot["data"]))


def walked(study):
    """The walk of PLANNING.md as far as pictures need it: their paths by name, and the two pages."""
    (study / "study.toml").write_text(
        text_of("hill/study.toml").replace("../examples", str(TOP / "examples"))
    )
    sims = (
        text_of("sims.py")
        .replace("examples/hill.csv", str(TOP / "examples/hill.csv"))
        .replace("sims.npy", str(study / "sims.npy"))
    )
    subprocess.run(["/usr/bin/python3", "-c", sims], check=True)
    for command in ("build", "slopes", "shells"):
        pitplan(command, study)
    graph, plan, section = pitplan("plot", study)
    years, _, by_year, *_ = pitplan("schedule", study)
    pitplan("compare", study, "--surface", TOP / "examples/hill-design.dxf", may_refuse=True)
    design = next((study / "out/compare-hill-design").glob("plan-*.png"))
    pitplan("phases", study, "0.4,1.0", "--widen", "40")
    pages = pitplan(
        "page", study, "--phases", "0.4,1.0", "--design", TOP / "examples/hill-design.dxf"
    )
    pitplan("risk", study, "--realisations", study / "sims.npy")
    return (
        {
            "slopes": study / "out/slopes.png",
            "pit-by-pit": graph,
            "plan": plan,
            "section": section,
            "design": design,
            "schedule-years": years,
            "schedule-section": by_year,
        },
        pages[0],
        study / "out/likelihood.html",
    )


def of_the_desk(place):
    """The desk over the example: an error beside its field, slopes with their rose, a run. Their paths by name."""
    from desks import Chromium, Desk

    shots = {name: place / f"{name}.png" for name in ("prices", "slopes", "run")}
    folder = place / "mines"
    shutil.copytree(TOP / "examples/hill", folder / "hill")
    shutil.copy(TOP / "examples/hill.csv", folder)
    desk, browser = Desk(folder), Chromium("1280,760")
    try:
        browser.get(desk.door)
        browser.press_on("a", "hill")
        browser.sees("5,041 rows")
        browser.click("[id='to.money']")
        browser.types("i.economics.metals.1.price", "1950")
        browser.types("i.economics.mining", "2.0 + 0.03 * (1125 - ZD) / 10")
        browser.sees("there is no column 'ZD'")
        browser.script("document.querySelector('.k-metals').scrollIntoView({ block: 'start' })")
        browser.shot(shots["prices"])
        browser.types("i.economics.mining", "2.0 + 0.03 * (1125 - ZC) / 10")
        browser.click("[id='to.slopes']")
        browser.types("i.slopes.regions.NORTH.0.1", "39")
        browser.sees("39.0", "table.data")
        browser.resized(1500, 860)
        drawn = "return [...document.images].every(i => i.complete && i.naturalWidth)"
        browser.until(lambda: browser.script(drawn), "the rose")
        browser.shot(shots["slopes"])
        browser.resized(1280, 760)
        browser.click("[id='to.pits']")
        browser.click("#all")
        browser.sees("pits proved", "#running")
        browser.script("document.querySelector('#main').scrollTop = 230")
        browser.shot(shots["run"])
        browser.sees("build, and pits done by", "#main")
    finally:
        browser.close()
        desk.end()
    return shots


def written(pictures, target, kind):
    """Writes pictures with few colours; each has to be small."""
    for name, picture in pictures.items():
        file = target / f"{kind}-{name}.png"
        Image.open(picture).convert("RGB").quantize(
            COLOURS, method=Image.Quantize.MAXCOVERAGE, dither=Image.Dither.NONE
        ).save(file, optimize=True)
        size = file.stat().st_size
        print(f"{file}: {size:,} bytes")
        if size > MOST:
            sys.exit(f"{file} has more than {MOST:,} bytes")


def leafed(study):
    """Two pages of the report, one below the other: the cover and the first tables."""
    pitplan("report", study, "--pdf", "--phases", "0.4,1.0")
    words = ["pdftoppm", "-r", "72", "-png", study / "out/report.pdf", study / "leaf"]
    subprocess.run(words, check=True)
    leaves = [Image.open(path) for path in sorted(study.glob("leaf*.png"))]
    wide, high = leaves[0].size
    both = Image.new("RGB", (wide + 2, 2 * high + 3), "#888888")
    both.paste(leaves[0], (1, 1))
    both.paste(leaves[2], (1, high + 2))
    both.save(study / "report.png")
    return study / "report.png"


def main():
    words = [word for word in sys.argv[1:] if word != "--desk"]
    target = Path(words[0]) if words else TOP / "docs/pictures"
    target.mkdir(parents=True, exist_ok=True)
    sys.path[:0] = [str(TOP / "python/tests/support"), str(TOP / "python")]
    with tempfile.TemporaryDirectory() as place:
        written(of_the_desk(Path(place)), target, "desk")
    if "--desk" not in sys.argv:
        of_the_walk(target)


def of_the_walk(target):
    """The pictures of PLANNING.md."""
    from browsers import chromium

    with tempfile.TemporaryDirectory() as place:
        study = Path(place) / "hill"
        study.mkdir()
        pictures, page, likelihood = walked(study)
        pictures["report"] = leafed(study)
        browser = chromium(size="1180,1000")
        try:
            for name, wide, path, steps, part in (
                ("page", 1440, page, [(HIDE,)], None),
                ("page-pushbacks", 1180, page, [(CHOOSE, "1")], ("section", "section")),
                (
                    "page-design",
                    1180,
                    page,
                    [(CHOOSE, "2"), (CUT, "z", -1)],
                    ("section", "section"),
                ),
                ("likelihood", 1180, likelihood, [], ("section", "section")),
            ):
                pictures[name] = study / f"{name}.png"
                browser.set_window_size(wide, 900)
                photographed(browser, path, pictures[name], steps, part)
        finally:
            browser.quit()
        written(pictures, target, "hill")


if __name__ == "__main__":
    main()
