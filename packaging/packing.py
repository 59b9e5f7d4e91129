"""Packs the files of packaging/contents.txt into a Debian package and an archive file, the same bytes on every run.

Names are sorted, all belongs to root, every date is the one given. Assumes dpkg-deb.
"""

import gzip
import hashlib
import os
import re
import shutil
import subprocess
import tarfile
from collections import namedtuple

from making import CannotMake, HERE, ROOT, least_libc, major, template, version

CONTENTS = HERE / "contents.txt"
LIBRARY = {"deb": "lib/x86_64-linux-gnu", "tar": "lib"}
DOCS = {"deb": "share/doc/buzzlumen", "tar": "."}
SCRIPTS = ("postinst", "prerm")
# Pages for those who keep the tree, which say how it came from an older kit and to its forms; no package holds them.
FOR_THE_TREE = {"docs/DESIGN-PASS.md", "docs/LOOK-BACK.md", "docs/PORT.md"}

# A file of a package: its mode, or None for a link; where it stands; the file of the tree, or what the link names.
Entry = namedtuple("Entry", "mode place source")


def lines_of(text):
    """The lines of a list of contents, each as its four words."""
    for number, line in enumerate(text.splitlines(), 1):
        words = line.partition("#")[0].split()
        if not words:
            continue
        if len(words) != 4 or words[0] not in ("all", "deb", "tar") or words[1] not in ("755", "644", "link"):
            raise CannotMake(f"packaging/contents.txt, line {number}: not which, mode, place and source")
        yield words


def entries(which, text=None):
    """What one of the two packages holds, by place."""
    text = CONTENTS.read_text(encoding="utf-8") if text is None else text
    words_for = {"LIBRARY": LIBRARY[which], "DOCS": DOCS[which], "VERSION": version(), "MAJOR": major()}

    def filled(word):
        return os.path.normpath(re.sub("|".join(words_for), lambda found: words_for[found[0]], word))

    found = {}
    for who, mode, place, source in lines_of(text):
        if who in ("all", which):
            link = mode == "link"
            entry = Entry(None if link else int(mode, 8), filled(place), filled(source) if link else source)
            if entry.place in found:
                raise CannotMake(f"packaging/contents.txt has {entry.place} twice")
            found[entry.place] = entry
    return [found[place] for place in sorted(found)]


def path_of(source, made):
    """The file behind a source."""
    folder, slash, name = source.partition("/")
    return made / name if folder == "made" and slash else ROOT / source


def lay_out(which, made, folder, epoch):
    """Put the files of a package where they stand in it, under a folder."""
    for entry in entries(which):
        target = folder / entry.place
        target.parent.mkdir(parents=True, exist_ok=True)
        if entry.mode is None:
            target.symlink_to(entry.source)
            continue
        source = path_of(entry.source, made)
        if not source.is_file():
            raise CannotMake(f"packaging/contents.txt names {entry.source}, which is not here")
        shutil.copyfile(source, target)
        target.chmod(entry.mode)
    settle_dates(folder, epoch)


def settle_dates(folder, epoch):
    """One date for all, and folders that everyone reads."""
    for path in [folder, *folder.rglob("*")]:
        if path.is_dir() and not path.is_symlink():
            path.chmod(0o755)
        os.utime(path, (epoch, epoch), follow_symlinks=False)


# The archive file


def tar_name():
    """The archive file's name, and its own folder's."""
    return f"buzzlumen-{version()}-x86_64-linux"


def pack_tar(made, epoch):
    """Write the archive file beside what was made for it; gives its path."""
    layout, target = made / "tar", made / f"{tar_name()}.tar.gz"
    lay_out("tar", made, layout / tar_name(), epoch)
    with (target.open("wb") as raw, gzip.GzipFile("", "wb", 9, raw, mtime=0) as packed,
          tarfile.open(fileobj=packed, mode="w", format=tarfile.USTAR_FORMAT) as archive):
        for path in sorted(layout.rglob("*")):
            archive.add(path, str(path.relative_to(layout)), recursive=False, filter=of_root)
    return target


def of_root(member):
    """An entry of the archive that belongs to root."""
    member.uid = member.gid = 0
    member.uname = member.gname = "root"
    return member


# The Debian package


def pack_deb(made, epoch):
    """Write the Debian package beside what was made for it; gives its path."""
    layout, target = made / "deb", made / f"buzzlumen_{version()}_amd64.deb"
    lay_out("deb", made, layout / "usr", epoch)
    control = layout / "DEBIAN"
    control.mkdir()
    files = sorted(path for path in (layout / "usr").rglob("*") if path.is_file() and not path.is_symlink())
    kilobytes = sum(-(-path.stat().st_size // 1024) for path in files) + len(list(layout.rglob("*")))
    text = template("control.in", VERSION=version(), KILOBYTES=kilobytes, LIBC=least_libc(made))
    (control / "control").write_text(text, encoding="utf-8")
    (control / "shlibs").write_text(f"libbuzzlumen {major()} buzzlumen (>= {version()})\n", encoding="utf-8")
    (control / "triggers").write_text("activate-noawait ldconfig\n", encoding="utf-8")
    (control / "md5sums").write_text("".join(f"{hashlib.md5(path.read_bytes()).hexdigest()}  "
                                             f"{path.relative_to(layout)}\n" for path in files), encoding="utf-8")
    for path in control.iterdir():
        path.chmod(0o644)
    for name in SCRIPTS:
        shutil.copyfile(HERE / "scripts" / name, control / name)
        (control / name).chmod(0o755)
    settle_dates(layout, epoch)
    build_deb(layout, target, epoch)
    return target


def build_deb(layout, target, epoch):
    """Run dpkg-deb over a folder."""
    command = ["dpkg-deb", "--root-owner-group", "-Zxz", "-z9", "--threads-max=1", "--build", layout, target]
    try:
        ended = subprocess.run(command, capture_output=True, text=True, check=False,
                               env=dict(os.environ, SOURCE_DATE_EPOCH=str(epoch)))
    except FileNotFoundError:
        raise CannotMake("dpkg-deb is not here; it makes the Debian package") from None
    if ended.returncode:
        raise CannotMake(ended.stderr.strip())


# What must not be forgotten


def sources(text=None):
    """Every file of the tree that one of the packages holds."""
    text = CONTENTS.read_text(encoding="utf-8") if text is None else text
    return {source for _, mode, _, source in lines_of(text) if mode != "link"}


def to_be_packed():
    """Every file of the tree that a package must hold: the command, the header, the pages and the course."""
    found = {"buzzlumen", "README.md", "LICENSE"}
    for folder, pattern in (("command/buzzlumen", "*.py"), ("include", "*.h"), ("docs", "*")):
        found |= {str(path.relative_to(ROOT)) for path in (ROOT / folder).rglob(pattern) if path.is_file()}
    return found - FOR_THE_TREE


def forgotten(text=None):
    """What no package holds and should."""
    return sorted(to_be_packed() - sources(text))
