"""Tests of the manual's site: each link of it leads to a file and to a place in that file, nothing is asked of the network, each page of the
tree and each public name of pitplan is in it, and its first page leads to all."""
import re
from html.parser import HTMLParser
from posixpath import dirname, join, normpath
from urllib.parse import unquote

NAMES = re.compile(r"\b(\w+) as \1\b")  # as a door names what it gives
LEADS = {"a": "href", "link": "href", "script": "src", "img": "src"}


class Page(HTMLParser):
    """What a page leads to, and the places in it that others may lead to."""

    def __init__(self, text):
        super().__init__()
        self.links, self.places, self.loads = [], {""}, []
        self.feed(text)

    def handle_starttag(self, tag, attributes):
        its = dict(attributes)
        self.places.update(its[name] for name in ("id", "name") if its.get(name))
        link = its.get(LEADS.get(tag, ""))
        if link is not None:
            self.links.append(link)
            self.loads += [link] if tag != "a" else []


def read(files):
    """The pages among the files of a site, by path."""
    return {path: Page(data.decode()) for path, data in files.items() if path.endswith(".html")}


def target(path, link):
    """The file and the place that a link of a page leads to."""
    file, _, place = link.partition("#")
    file = unquote(file.partition("?")[0])
    return normpath(join(dirname(path), file)) if file else path, unquote(place)


def broken(files):
    """The links that lead to no file, or to no place in it; and what a page loads from elsewhere."""
    wrong, there = [], read(files)
    for path, page in there.items():
        wrong += ["%s loads %s" % (path, link) for link in page.loads if "://" in link]
        for link in page.links:
            if re.match(r"[a-z]+:", link):
                continue
            file, place = target(path, link)
            if file not in files:
                wrong.append("%s: no file %s" % (path, link))
            elif file in there and place not in there[file].places:
                wrong.append("%s: no place %s" % (path, link))
    return wrong


def unreached(files):
    """The pages that no way of links leads to from the first."""
    there, seen, left = read(files), set(), ["index.html"]
    while left:
        path = left.pop()
        if path in there and path not in seen:
            seen.add(path)
            left += [target(path, link)[0] for link in there[path].links if "://" not in link]
    return ["no way leads to %s" % path for path in sorted(set(there) - seen)]


def missing(files, wanted, top):
    """The pages of the tree that the site hasn't, and public names of pitplan's packages that have no place in the reference."""
    pages = {"index" if str(page) == "README.md" else str(page.with_suffix("")) for page in wanted}
    wrong = ["%s isn't there" % page for page in sorted(pages) if page + ".html" not in files]
    places = {
        place
        for path, page in read(files).items()
        if path.startswith("reference/")
        for place in page.places
    }
    for door in sorted((top / "python" / "pitplan").glob("*/__init__.py")):
        package = "pitplan." + door.parent.name
        for name in NAMES.findall(door.read_text()):
            place = "%s.%s" % (package, name)
            if place not in places and "module-" + place not in places:
                wrong.append("%s has no place in the reference" % place)
    return wrong
