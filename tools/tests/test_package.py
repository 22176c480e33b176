"""Tests package.sh: what it makes is installed in an empty root and run there."""

import os
import re
import shutil
import subprocess
import tempfile
import unittest
from pathlib import Path

from calling import EXAMPLES, TOOLS, TOP, program


def called(*words, **more):
    return subprocess.run([str(word) for word in words], capture_output=True, check=False, **more)


def may_change_root():
    return os.geteuid() == 0 and shutil.which("chroot") and shutil.which("ldd")


class Package(unittest.TestCase):
    def setUp(self):
        made = tempfile.TemporaryDirectory()
        self.addCleanup(made.cleanup)
        self.folder = Path(made.name)
        self.run = called(TOOLS / "package.sh", program(), self.folder, text=True)

    def file(self, ending):
        """The path of what was made, which the script tells."""
        found = [Path(line) for line in self.run.stdout.splitlines() if line.endswith(ending)]
        self.assertEqual(len(found), 1, self.run.stderr)
        return found[0]

    def installed(self):
        """An empty root in which the package was installed."""
        root = self.folder / "root"
        for part in ("info", "updates", "triggers"):
            (root / "var/lib/dpkg" / part).mkdir(parents=True)
        (root / "var/lib/dpkg/status").touch()
        run = called("dpkg", f"--root={root}", "--force-depends", "--force-script-chrootless", "--log=/dev/null", "-i",
                     self.file(".deb"))
        self.assertEqual(run.returncode, 0, run.stderr)
        return root

    @staticmethod
    def with_libraries(root):
        """The root, with the C library and its loader from this machine."""
        listed = subprocess.run(["ldd", program()], capture_output=True, text=True, check=True).stdout
        for path in re.findall(r"(/\S+)", listed):
            (root / path[1:]).parent.mkdir(parents=True, exist_ok=True)
            shutil.copy(path, root / path[1:])
        return root

    def test_usage(self):
        run = called(TOOLS / "package.sh", text=True)
        self.assertEqual((run.returncode, run.stderr), (2, "usage: package.sh PROGRAM FOLDER\n"))

    def test_the_tar_has_the_program_and_its_pages(self):
        names = called("tar", "-tzf", self.file(".tar.gz"), text=True).stdout.splitlines()
        inside = {name.split("/", 1)[1] for name in names if "/" in name}
        version = (TOP / "VERSION").read_text().strip()
        self.assertTrue(names[0].startswith(f"smilplay-{version}-"), names[0])
        for name in ("usr/bin/smilplay", "usr/share/man/man1/smilplay.1.gz", "usr/share/doc/smilplay/docs/GUIDE.md",
                     "usr/share/bash-completion/completions/smilplay",
                     "usr/share/zsh/vendor-completions/_smilplay", "usr/share/fish/vendor_completions.d/smilplay.fish", "usr/share/doc/smilplay/README.md",
                     "usr/share/doc/smilplay/examples/tour.play"):
            self.assertIn(name, inside)

    @unittest.skipUnless(shutil.which("dpkg-deb") and may_change_root(), "no dpkg-deb, or not root")
    def test_installed_in_an_empty_root_it_runs(self):
        root = self.with_libraries(self.installed())
        session = "/usr/share/doc/smilplay/examples/tour.play"
        run = called("chroot", root, "/usr/bin/smilplay", "run", input=(root / session[1:]).read_bytes())
        self.assertEqual((run.returncode, run.stdout.decode()), (0, (EXAMPLES / "tour.play.stdout").read_text()))

    @unittest.skipUnless(shutil.which("dpkg-deb"), "no dpkg-deb")
    def test_the_package_names_its_version(self):
        shown = called("dpkg-deb", "-f", self.file(".deb"), "Package", "Version", text=True).stdout
        self.assertEqual(shown, f"Package: smilplay\nVersion: {(TOP / 'VERSION').read_text()}")

    @unittest.skipUnless(shutil.which("shellcheck"), "no shellcheck")
    def test_shellcheck(self):
        run = called("shellcheck", TOOLS / "package.sh", text=True)
        self.assertEqual((run.returncode, run.stdout), (0, ""))


if __name__ == "__main__":
    unittest.main()
