"""Finds the parts of a talking book: an EPUB with media overlays, or the folder of a DAISY book.

A part is a SMIL file of the book, with its place in the reading order and the title that the book's
table of contents has for it. Paths are those of the book, with `/`, from its top.
"""

import posixpath
import zipfile
from pathlib import Path
from urllib.parse import unquote

from smil_xml import Fault, read_xml

OVERLAY = "application/smil+xml"
SMILS = (OVERLAY, "application/smil")
LARGEST = 64 * 1024 * 1024


class Part:
    """A SMIL file of a book."""

    def __init__(self, path, title):
        self.path = path
        self.title = title


class Book:
    """The files of a book: a folder or a zip file."""

    def __init__(self, path):
        self.name = str(path)
        self.zip = None
        if not Path(path).is_dir():
            try:
                self.zip = zipfile.ZipFile(path)
            except zipfile.BadZipFile:
                raise Fault(f"{path}: no zip file") from None
        self.spelled = {name.lower(): name for name in self.names()}

    def names(self):
        """The paths of all files of the book."""
        if self.zip:
            return self.zip.namelist()
        return sorted(str(path.relative_to(self.name)) for path in Path(self.name).rglob("*") if path.is_file())

    def read(self, path):
        """The bytes of a file of the book. Raises Fault where there is none, or it can't be read or is too large."""
        if path.startswith(("/", "..")):
            raise Fault(f"{self.name}: {path} isn't in the book")
        try:
            if self.zip is None:
                return (Path(self.name) / path).read_bytes()
            if self.zip.getinfo(path).file_size > LARGEST:
                raise Fault(f"{self.name}: {path} is larger than {LARGEST} bytes")
            return self.zip.read(path)
        except (KeyError, OSError, RuntimeError, zipfile.BadZipFile):
            raise Fault(f"{self.name}: {path} can't be read") from None

    def found(self, path):
        """A path as the book spells it: books made where the case of names doesn't count may mix it."""
        return self.spelled.get(path.lower(), path)

    def xml(self, path):
        """The root element of a file of the book. Raises Fault where it can't be read."""
        return read_xml(self.read(path), f"{self.name}: {path}")

    def parts(self):
        """The parts in reading order. Raises Fault where the book has none, or its package can't be read."""
        names = self.names()
        if "META-INF/container.xml" in names:
            found = self.packaged(self.package())
        elif ncc := next((name for name in names if posixpath.basename(name).lower() in ("ncc.html", "ncc.htm")), None):
            found = self.from_ncc(ncc)
        elif opf := next((name for name in names if name.lower().endswith(".opf")), None):
            found = self.packaged(opf)
        else:
            raise Fault(f"{self.name}: no book: it has no container.xml, ncc.html or .opf file")
        if not found:
            raise Fault(f"{self.name}: the book has no SMIL files in its reading order")
        return found

    def package(self):
        """The path of an EPUB's package file. Raises Fault where none is named."""
        for element in self.xml("META-INF/container.xml").all():
            if element.name == "rootfile" and element.attributes.get("full-path"):
                path = element.attributes["full-path"]
                return path if path.lower() in self.spelled else self.found(unquote(path))
        raise Fault(f"{self.name}: META-INF/container.xml names no package file")

    def packaged(self, opf):
        """The parts that a package file names: SMIL files in the spine, or overlays of what is there."""
        package, items, overlays = self.xml(opf), {}, []
        for element in package.all():
            if element.name == "item":
                items[element.attributes.get("id")] = element.attributes
        for element in package.all():
            item = items.get(element.attributes.get("idref")) if element.name == "itemref" else None
            if item and item.get("media-type") in SMILS:
                overlays.append((self.found(joined(opf, item.get("href", ""))), None))
            elif item and item.get("media-overlay") in items:
                overlay = items[item["media-overlay"]].get("href", "")
                overlays.append((self.found(joined(opf, overlay)), joined(opf, item.get("href", ""))))
        try:
            titles = self.titles(opf, items.values())
        except Fault:
            titles = {}
        parts = {}
        for path, page in overlays:
            parts.setdefault(path, Part(path, titles.get(page or path, "")))
        return list(parts.values())

    def titles(self, opf, items):
        """The title of each file that the table of contents names, the first for each."""
        titles = {}
        for item in items:
            path = joined(opf, item.get("href", ""))
            if "nav" in item.get("properties", "").split():
                for link in self.xml(path).all():
                    if link.name == "a" and "href" in link.attributes:
                        titles.setdefault(joined(path, link.attributes["href"]), link.text())
            elif item.get("media-type") == "application/x-dtbncx+xml" or path.endswith(".ncx"):
                for point in self.xml(path).all():
                    if point.name == "navPoint":
                        label = next((child.text() for child in point.children if child.name == "navLabel"), "")
                        source = next((child.attributes.get("src", "") for child in point.children
                                       if child.name == "content"), "")
                        titles.setdefault(joined(path, source), label)
        return titles

    def from_ncc(self, ncc):
        """The parts that a DAISY 2.02 table of contents names, in its order."""
        parts = {}
        for link in self.xml(ncc).all():
            path = self.found(joined(ncc, link.attributes.get("href", ""))) if link.name == "a" else ""
            if path.lower().endswith((".smil", ".smi")):
                parts.setdefault(path, Part(path, link.text()))
        return list(parts.values())


def joined(file, reference):
    """The path that a reference in a file of the book leads to, without its fragment."""
    path = unquote(reference.split("#")[0])
    return posixpath.normpath(posixpath.join(posixpath.dirname(file), path)) if path else file


def is_book(path):
    """Whether a path leads to a folder or a zip file."""
    return Path(path).is_dir() or (Path(path).is_file() and zipfile.is_zipfile(path))
