"""Tries `package`, `install` for packagers, and the pages of the tools. A script stands in the program's place. Parts of checks/contrib."""
import gzip
import os
import re
import shutil
import stat
import subprocess
import sys
import tarfile
import tempfile
from itertools import product
from pathlib import Path

from stand_in import ROOT, command, stand_in

TOOLS = sorted(path.name for path in (ROOT / "contrib").glob("corr-*") if path.name != "corr-start")
PAGES = [f"{name}.1" for name in ("corr", *TOOLS)]
VERSION = re.search(r"^## (\S+)", (ROOT / "CHANGELOG.md").read_text(), re.M)[1]
NAME = f"corr-{VERSION}-linux-x86_64"
TARBALL, PACKAGE = f"{NAME}.tar.gz", f"corr_{VERSION}_amd64.deb"
THEN = 1000000000  # September 9, 2001, 01:46:40
SYMBOLS = "# GLIBC_2.4 GLIBC_2.17 GLIBC_2.2.5\n"  # what a program that needs the C library's version 2.17 names
COIN_SUM = "efce greatest sum 3 corner 0 (3, 0)".split()  # of the corners (3, 0) and (3/2, 0)
FIELDS = {
    "Package": "corr",
    "Version": VERSION,
    "Architecture": "amd64",
    "Maintainer": "corr maintainers <maintainers@users.noreply.zimtughal.example>",
    "Depends": "libc6 (>= 2.17), bash (>= 4.4), util-linux (>= 2.33)",
    "Recommends": "python3 (>= 3.8), man-db",
    "Suggests": "librsvg2-bin, gambit",
}
DOCUMENTS = ["README.md", "changelog.gz", "copyright", "docs/FORMATS.md", "docs/TUTORIAL.md", "examples/INDEX.md", "examples/chicken.efg"]


def has(program, use):
    """Whether the machine has a program; else the line that says so."""
    found = shutil.which(program) is not None
    if not found:
        print(f"contrib: this machine has no {program}, so {use} wasn't tried")
    return found


def called(*words, mask=0o022, **variables):
    """What a command says, and its status, under this umask and with these variables; those that are None are left out."""
    kept = {name: value for name, value in {**os.environ, "SOURCE_DATE_EPOCH": str(THEN), **variables}.items() if value is not None}
    masked = ["bash", "-c", f'umask {mask:o} && exec "$@"', "try", *map(str, words)]
    ended = subprocess.run(masked, stdin=subprocess.DEVNULL, capture_output=True, text=True, env=kept, check=False)
    return ended.stdout, ended.stderr, ended.returncode


def tree(folder):
    """All that is in a folder: the rights and the content of each file, the rights of each folder, where each link leads."""
    return {str(path.relative_to(folder)): entry(path) for path in folder.rglob("*")}


def entry(path):
    if path.is_symlink():
        return os.readlink(path)
    rights = oct(stat.S_IMODE(path.stat().st_mode))
    return (rights, None if path.is_dir() else path.read_bytes())


def rights(folder):
    """The rights of files and folders that aren't as they should be: 755 for what is run and for folders, else 644."""
    found = [(path, stat.S_IMODE(path.stat().st_mode)) for path in folder.rglob("*") if not path.is_symlink()]
    return [(str(path), oct(mode)) for path, mode in found if mode not in ((0o755,) if is_run(path) else (0o644,))]


def is_run(path):
    return path.is_dir() or path.read_bytes()[:2] == b"#!"


class Copy:
    """A copy of the project in a folder, whose program needs the C library."""

    def __init__(self, folder):
        self.place = Path(folder)
        self.place.mkdir(exist_ok=True)
        self.root = self.place / "copy"
        program = stand_in(self.root)
        program.write_text(program.read_text() + SYMBOLS)

    def install(self, *words, **variables):
        return called(self.root / "install", *words, **variables)

    def package(self, name, *words, **variables):
        """Packages into the folder of this name, and what was said."""
        into = self.place / name
        return into, called(self.root / "package", *words, "--into", into, **variables)

    def age(self):
        """Gives the sources other times and other rights."""
        for number, path in enumerate(path for path in self.root.rglob("*") if path.is_file()):
            os.utime(path, (THEN + number, THEN + number))
            path.chmod(path.stat().st_mode & 0o700)

    def unpacked(self, into, name):
        """The tarball in a folder of its own."""
        folder = self.place / name
        folder.mkdir()
        subprocess.run(["tar", "-xzf", str(into / TARBALL), "-C", str(folder)], check=True)
        return folder / NAME


# `install` for packagers


def staged():
    """DESTDIR: the same files as under a prefix, what is said is about the prefix, and nothing is there."""
    with tempfile.TemporaryDirectory() as place:
        copy, target, prefix = Copy(place), Path(place) / "target", Path(place) / "a prefix"
        out, _, status = copy.install("--prefix", prefix)
        plain = tree(prefix)
        shutil.rmtree(prefix)
        yield "DESTDIR: what is said", copy.install("--prefix", prefix, DESTDIR=str(target)), (out, "", status)
        laid = Path(f"{target}{prefix}")
        yield "DESTDIR: the files", tree(laid) == plain, True
        yield "DESTDIR: nothing under the prefix", prefix.exists(), False
        yield "DESTDIR: pages", sorted(path.name for path in (laid / "share/man/man1").iterdir()), sorted(PAGES)
        yield "DESTDIR: links", [name for name, value in plain.items() if isinstance(value, str) and value.startswith("/")], []
        yield "DESTDIR: the command", command(laid / "bin/corr", "work"), ("stand-in work\n", 0)
        taken = copy.install("--uninstall", "--prefix", prefix, DESTDIR=str(target))
        yield "DESTDIR, taken away", taken, (f"taken away from {prefix}\n", "", 0)
        yield "DESTDIR, what is left", [path for path in target.rglob("*") if not path.is_dir()], []
        again = copy.install("--uninstall", "--prefix", prefix, DESTDIR=str(target))
        yield "DESTDIR, taken away twice", again, (f"nothing of corr is installed under {prefix}\n", "", 0)
        copy.install("--prefix", prefix, mask=0o077)
        yield "umask 077: the files", (tree(prefix) == plain, rights(prefix)), (True, [])


# The tarball


def tarballs():
    with tempfile.TemporaryDirectory() as place:
        copy = Copy(place)
        into, said = copy.package("one")
        made = [TARBALL] + [PACKAGE] * bool(shutil.which("dpkg-deb"))
        wanted = f"made in {into}: {' '.join(made)}\n", 2 - len(made), 0
        yield "package: what is said", (said[0], said[1].count("\n"), said[2]), wanted
        yield "package: files", sorted(path.name for path in into.iterdir()), sorted(made)
        copy.age()
        (Path(place) / "other").mkdir()
        again, _ = copy.package("two", mask=0o077, TMPDIR=str(Path(place) / "other"), LC_ALL="C.UTF-8", TZ="Asia/Tokyo", DESTDIR="/nowhere")
        for name in made:
            yield f"{name} twice", (again / name).read_bytes() == (into / name).read_bytes(), True
            yield f"{name}: rights", oct(stat.S_IMODE((again / name).stat().st_mode)), "0o644"
        yield "package: no folder is left", list((Path(place) / "other").iterdir()), []
        yield from members(into / TARBALL)
        yield from in_place(copy, copy.unpacked(again, "elsewhere"))


def members(path):
    """What a tarball says of its members."""
    with tarfile.open(path) as opened:
        found = opened.getmembers()
    names = [member.name for member in found]
    yield "tarball: one folder", {name.split("/")[0] for name in names}, {NAME}
    yield "tarball: in it", {name.split("/")[1] for name in names[1:]}, {"README", "bin", "lib", "share"}
    yield "tarball: times", {member.mtime for member in found}, {THEN}
    yield "tarball: owners", {(member.uid, member.gid, member.uname, member.gname) for member in found}, {(0, 0, "", "")}
    yield "tarball: rights", {oct(member.mode) for member in found if not member.issym()}, {"0o755", "0o644"}
    yield "tarball: kinds", [member.name for member in found if not (member.isdir() or member.isreg() or member.issym())], []
    yield "tarball: in order", [name.split("/") for name in names], sorted(name.split("/") for name in names)
    yield "gzip: neither name nor time", path.read_bytes()[3:8], bytes(5)


def in_place(copy, folder):
    """The unpacked folder is used when the copy that it comes from is gone, and laid under a prefix."""
    shutil.rmtree(copy.root / "contrib")
    shutil.rmtree(copy.root / "crates")
    coin = str(ROOT / "checks/samples/coin.report")
    moved = copy.place / "moved"
    yield "tarball: rights on disk", rights(folder), []
    yield "tarball: documents", [name for name in DOCUMENTS if not (folder / "share/doc/corr" / name).is_file()], []
    for place in (folder, moved):
        yield f"{place.name}: --version", command(place / "bin/corr", "--version"), (f"corr {VERSION}\n", 0)
        yield f"{place.name}: solve", command(place / "bin/corr", "solve"), ("stand-in solve\n", 0)
        out, status = command(place / "bin/corr-welfare", coin)
        yield f"{place.name}: corr-welfare", (out.split("\n")[0].split(), status), (COIN_SUM, 0)
        if place is folder:
            shutil.copytree(folder, moved, symlinks=True)
            shutil.rmtree(folder)
    readme = (moved / "README").read_text()
    yield "tarball: README names each tool", [name for name in TOOLS if name not in readme], []
    yield "tarball: README on the C library", "version 2.17" in readme, True
    yield "tarball: README on the licence", "No licence was chosen" in readme, True
    taken = re.search(r"^    for .*^    done$", readme, re.M | re.S)[0]
    subprocess.run(["bash", "-c", f"rm -r lib/corr share/corr share/doc/corr\n{taken}"], cwd=moved, check=True)
    yield "tarball: taken away as README says", [path.name for path in moved.rglob("*") if not path.is_dir()], ["README"]


# The Debian package


def debian():
    if not has("dpkg-deb", "the Debian package"):
        return
    with tempfile.TemporaryDirectory() as place:
        copy = Copy(place)
        into, _ = copy.package("made")
        package = into / PACKAGE
        for field, value in FIELDS.items():
            yield f"deb: {field}", called("dpkg-deb", "--field", package, field), (value + "\n", "", 0)
        out, _, status = called("dpkg-deb", "--info", package)
        yield "deb: info", (status, "md5sums" in out, " Description: exact solver" in out), (0, True, True)
        lines = [line.split() for line in called("dpkg-deb", "--contents", package, TZ="UTC")[0].splitlines()]
        yield "deb: owners", {line[1] for line in lines}, {"root/root"}
        yield "deb: rights", {line[0] for line in lines}, {"drwxr-xr-x", "-rwxr-xr-x", "-rw-r--r--", "lrwxrwxrwx"}
        yield "deb: times", {(line[3], line[4]) for line in lines}, {("2001-09-09", "01:46")}
        yield "deb: all below usr", [line[5] for line in lines if not line[5].startswith("./usr/")], ["./"]
        folder = Path(place) / "unpacked"
        subprocess.run(["dpkg-deb", "-x", str(package), str(folder)], check=True)
        yield from laid(copy, folder / "usr", called("dpkg-deb", "-f", package, "Installed-Size")[0])
        subprocess.run(["dpkg-deb", "-e", str(package), str(folder / "usr")], check=True)
        sums = called("env", "-C", folder, "md5sum", "--check", "--quiet", "usr/md5sums")
        yield "deb: sums", (sums, len((folder / "usr/md5sums").read_text().splitlines())), (("", "", 0), files_in(folder / "usr") - 2)
        yield from installed(Path(place), package)


def files_in(folder):
    return len([path for path in folder.rglob("*") if path.is_file() and not path.is_symlink()])


def laid(copy, usr, size):
    """What the package lays below usr: what `install` does, but for documents, compressed pages and interpreters' places."""
    copy.install("--prefix", copy.place / "plain")
    plain, packed = tree(copy.place / "plain"), tree(usr)
    documents = {name for name in packed if f"{name}/".startswith("share/doc/")}
    yield "deb: files", {re.sub(r"\.1\.gz$", ".1", name) for name in set(packed) - documents}, set(plain)
    links = {name: value for name, value in plain.items() if isinstance(value, str)}
    yield "deb: links", {name: packed.get(name) for name in links}, links
    pages = {name: gzip.decompress((usr / "share/man/man1" / f"{name}.gz").read_bytes()) for name in PAGES}
    yield "deb: pages", pages, {name: (ROOT / "docs" / name).read_bytes() for name in PAGES}
    yield "deb: documents", [name for name in DOCUMENTS if f"share/doc/corr/{name}" not in packed], []
    games = sorted(path.name for path in (ROOT / "examples").glob("*.efg"))
    yield "deb: games", sorted(path.name for path in (usr / "share/doc/corr/examples").glob("*.efg")), games
    changes = gzip.decompress((usr / "share/doc/corr/changelog.gz").read_bytes())
    yield "deb: changes", changes, (ROOT / "CHANGELOG.md").read_bytes()
    first = {(usr / "share/corr" / name).read_text().split("\n")[0] for name in TOOLS}
    yield "deb: interpreter of the tools", first, {"#!/usr/bin/python3"}
    copyright_file = (usr / "share/doc/corr/copyright").read_text()
    said = [words in copyright_file for words in ("copyright-format/1.0", "No licence was chosen", "nobody may", "the maintainers of corr")]
    yield "deb: copyright", said, [True] * 4
    kept = [path.stat().st_size if path.is_file() and not path.is_symlink() else 1 for path in [usr, *usr.rglob("*")]]
    yield "deb: installed size", int(size), sum((number + 1023) // 1024 for number in kept)


def installed(place, package):
    """The package in an empty root, by dpkg; it is taken away again."""
    if os.geteuid() != 0:
        print("contrib: dpkg installs for root alone, so the Debian package wasn't installed, but unpacked")
        return
    root = place / "root"
    (root / "var/lib/dpkg/info").mkdir(parents=True)
    (root / "var/lib/dpkg/updates").mkdir()
    (root / "var/lib/dpkg/status").touch()
    words = ["dpkg", f"--root={root}", f"--log={place}/dpkg.log", "--path-include=*", "--force-not-root", "--force-depends"]
    yield "dpkg -i", called(*words, "-i", package)[2], 0
    yield "dpkg -i: solve", command(root / "usr/bin/corr", "solve"), ("stand-in solve\n", 0)
    yield "dpkg -i: the page", (root / "usr/share/man/man1/corr-welfare.1.gz").is_file(), True
    yield "dpkg -P", (called(*words, "-P", "corr")[2], (root / "usr").exists()), (0, False)


# Words, times, and what is missing


def refused():
    """Words and times that `package` doesn't take; it says why in one line."""
    with tempfile.TemporaryDirectory() as place:
        copy = Copy(place)
        package, blocked = copy.root / "package", Path(place) / "blocked"
        blocked.touch()
        cases = [(["it"], {}, 64), (["--into"], {}, 64), (["--into", ""], {}, 64), (["--into", blocked], {}, 74)]
        cases += [([], {"SOURCE_DATE_EPOCH": word}, 64) for word in ("now", "-1", "1.5", "123456789012")]
        cases += [([], {"SOURCE_DATE_EPOCH": None, "GIT_CEILING_DIRECTORIES": place}, 69)]
        for words, variables, wanted in cases:
            out, err, status = called(package, *words, **variables)
            heads = err.startswith("package: "), err.count("\n")
            yield f"package: refusal {err.strip()}", (out, heads, status), ("", (True, 1), wanted)
        yield "package: nothing was made", (copy.root / "dist").exists(), False
        out, err, status = called(package, "--help")
        yield "package --help", (out.startswith("usage: package "), err, status), (True, "", 0)
        (copy.root / "CHANGELOG.md").write_text("# Changes\n\n## Soon\n")
        yield "package: no version", called(package)[::2], ("", 2)
        yield from without_dpkg(place)


def without_dpkg(place):
    """The machine without dpkg-deb gets the tarball alone, into dist, which git ignores."""
    programs = Path(place) / "programs"
    programs.mkdir()
    folders = [Path(folder) for folder in reversed(os.environ["PATH"].split(os.pathsep)) if folder]
    found = {path.name: path for folder in folders for path in folder.glob("*")}
    for name in set(found) - {"dpkg-deb"}:
        (programs / name).symlink_to(found[name])
    copy = Copy(Path(place) / "bare")
    out, err, status = called(copy.root / "package", PATH=str(programs))
    heads = err.startswith("package: "), err.count("\n"), "dpkg-deb" in err
    yield "package without dpkg-deb", (out, heads, status), (f"made in {copy.root / 'dist'}: {TARBALL}\n", (True, 1, True), 0)
    yield "package without dpkg-deb: files", [path.name for path in (copy.root / "dist").iterdir()], [TARBALL]
    yield "git ignores dist", "dist/" in (ROOT / ".gitignore").read_text().split(), True


def commits():
    """Without SOURCE_DATE_EPOCH the times are that of the last commit."""
    if not has("git", "the time of the last commit"):
        return
    with tempfile.TemporaryDirectory() as place:
        copy, dated = Copy(place), {"GIT_COMMITTER_DATE": "1234567890 +0000", "HOME": place, "GIT_CONFIG_NOSYSTEM": "1"}
        names = ["-c", "user.name=a tester", "-c", "user.email=tester@localhost"]
        for words in (["init", "-q"], ["add", "CHANGELOG.md"], ["commit", "-q", "-m", "one"]):
            called("git", *names, "-C", copy.root, *words, **dated)
        into, _ = copy.package("made", SOURCE_DATE_EPOCH=None)
        with tarfile.open(into / TARBALL) as opened:
            yield "times of the last commit", {member.mtime for member in opened.getmembers()}, {1234567890}


# The pages of the tools


def pages():
    """Each tool has a page, which is as docs/make-pages makes it, whatever the width of the terminal."""
    kept = sorted(path.name for path in (ROOT / "docs").glob("corr-*.1"))
    yield "a page for each tool: else run docs/make-pages", kept, [f"{name}.1" for name in TOOLS]
    with tempfile.TemporaryDirectory() as place:
        made = called(sys.executable, ROOT / "docs/make-pages", "--into", place, COLUMNS="40")
        yield "docs/make-pages", made, ("", "", 0)
        stale = [name for name in kept if (Path(place) / name).read_text() != (ROOT / "docs" / name).read_text()]
        yield "pages that aren't as the tools are: run docs/make-pages", stale, []
    ways = [said] + [formed] * has("mandoc", "the form of the tools' pages") + [printed] * has("man", "the width of the tools' pages")
    for way, name in product(ways, kept):
        yield from way(name)


def dated():
    """A page that is right keeps its date; one whose tool has changed gets that of the day."""
    with tempfile.TemporaryDirectory() as place:
        copy = Copy(place)
        page, tool = copy.root / "docs/corr-welfare.1", copy.root / "contrib/corr-welfare"
        page.write_text(re.sub(r"^\.Dd .*", ".Dd May 1, 2020", page.read_text(), flags=re.M))
        called(sys.executable, copy.root / "docs/make-pages")
        yield "a page that is right", ".Dd May 1, 2020\n" in page.read_text(), True
        tool.write_text(tool.read_text().replace("Payoffs are the game's own.", "Payoffs aren't rounded.\n\n.so they stay\\\\\n'quoted'"))
        called(sys.executable, copy.root / "docs/make-pages")
        new, shown = page.read_text(), "Payoffs aren't rounded.\n.Pp\n\\&.so they stay\\e \\(aqquoted\\(aq\n"
        yield "a page that is old", (".Dd May" in new, shown in new), (False, True)


def said(name):
    """A page has its sections, and all options of the usage line."""
    text = (ROOT / "docs" / name).read_text()
    sections = ["NAME", "SYNOPSIS", "DESCRIPTION", "OPTIONS", "EXAMPLES", "SEE ALSO"]
    yield f"{name}: sections", re.findall(r"^\.Sh (.*)", text, re.M), sections
    out = command(ROOT / "contrib" / name[: -len(".1")], "--help")[0]
    named = sorted(set(re.findall(r"\[?--([a-z-]+)", out.split("\n\n")[0])) | {"help"})
    yield f"{name}: options", sorted(re.findall(r"^\.It .*?Fl -([a-z-]+)", text, re.M)), named


def widest(text):
    """Of printed text, whose bold signs are struck twice."""
    return max(len(re.sub(".\b|\x1b\\[[0-9;]*m", "", line).expandtabs()) for line in text.splitlines())


def printed(name):
    out, err, _ = called("man", "--warnings", "-l", ROOT / "docs" / name, MANWIDTH="80", LC_ALL="C", MANPAGER="cat")
    yield f"man -l {name}", (err, widest(out) <= 80), ("", True)


def formed(name):
    """mandoc finds no fault; that it knows no page of corr's doesn't count where docs/ has it."""
    out = called("mandoc", "-Tlint", ROOT / "docs" / name)[0]
    unknown = re.compile(r"referenced manual not found: Xr (\S+) 1")
    faults = [line for line in out.splitlines() if not (unknown.search(line) and f"{unknown.search(line)[1]}.1" in PAGES)]
    yield f"mandoc finds no fault in {name}", faults, []
    yield f"mandoc's {name}", widest(called("mandoc", "-Tascii", ROOT / "docs" / name)[0]) <= 80, True


PARTS = (staged, tarballs, debian, refused, commits, pages, dated)
