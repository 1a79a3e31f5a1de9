"""Files that are to be packed, by their paths, and written as the same bytes each time: sorted, with no owner, and all of one time."""
import gzip
import hashlib
import io
import os
import stat
import tarfile
import zipfile
from dataclasses import dataclass

PLAIN = 0o644
PROGRAM = 0o755


@dataclass(frozen=True)
class File:
    content: bytes
    mode: int = PLAIN


@dataclass(frozen=True)
class Link:
    target: str


class Tree:
    def __init__(self, entries=None):
        self.entries = dict(entries or {})

    def add(self, path, content, mode=PLAIN):
        """a file of these bytes, or of this text"""
        self.entries[path] = File(content.encode() if isinstance(content, str) else content, mode)

    def take(self, source, path):
        """a file of the disk; of its mode only that it is a program is kept"""
        if os.path.islink(source):
            self.entries[path] = Link(os.readlink(source))
            return
        with open(source, "rb") as file:
            self.add(path, file.read(), PROGRAM if os.stat(source).st_mode & stat.S_IXUSR else PLAIN)

    def take_folder(self, source, path=""):
        for at, folders, names in os.walk(source):
            for name in [*names, *(it for it in folders if os.path.islink(os.path.join(at, it)))]:
                full = os.path.join(at, name)
                self.take(full, os.path.join(path, os.path.relpath(full, source)))

    def below(self, folder):
        """the same files in a folder"""
        return Tree({f"{folder}/{path}": entry for path, entry in self.entries.items()})

    def files(self):
        return sorted((path, entry) for path, entry in self.entries.items() if isinstance(entry, File))

    def size(self):
        return sum(len(entry.content) for _, entry in self.files())

    def checksums(self, algorithm="sha256"):
        """the lines that sha256sum or md5sum write"""
        return "".join(f"{hashlib.new(algorithm, entry.content).hexdigest()}  {path}\n" for path, entry in self.files())

    def folders(self):
        found = set()
        for path in self.entries:
            while (path := os.path.dirname(path)):
                found.add(path)
        return found


def member(path, kind, mode, epoch):
    info = tarfile.TarInfo(path)
    info.type, info.mode, info.mtime = kind, mode, epoch
    return info


def write_tar(tree, path, epoch):
    """a .tar.gz"""
    room = io.BytesIO()
    with tarfile.open(fileobj=room, mode="w", format=tarfile.GNU_FORMAT) as tar:
        for name in sorted([*tree.entries, *tree.folders()]):
            entry = tree.entries.get(name)
            if entry is None:
                tar.addfile(member(name, tarfile.DIRTYPE, PROGRAM, epoch))
            elif isinstance(entry, Link):
                info = member(name, tarfile.SYMTYPE, 0o777, epoch)
                info.linkname = entry.target
                tar.addfile(info)
            else:
                info = member(name, tarfile.REGTYPE, entry.mode, epoch)
                info.size = len(entry.content)
                tar.addfile(info, io.BytesIO(entry.content))
    with open(path, "wb") as file, gzip.GzipFile("", "wb", 9, file, mtime=epoch) as packed:
        packed.write(room.getvalue())


def write_zip(tree, path, moment):
    """a .zip, with files in the order that they were added; moment: year, month, day, hour, minute, second"""
    with zipfile.ZipFile(path, "w", zipfile.ZIP_DEFLATED, compresslevel=9) as packed:
        for name, entry in tree.entries.items():
            info = zipfile.ZipInfo(name, moment)
            info.create_system = 3  # Unix
            info.external_attr = (stat.S_IFREG | entry.mode) << 16
            info.compress_type = zipfile.ZIP_DEFLATED
            packed.writestr(info, entry.content, compresslevel=9)


def write_folder(tree, folder, epoch):
    """the files on the disk, with the times of all set"""
    for name in sorted(tree.folders()):
        os.makedirs(os.path.join(folder, name), exist_ok=True)
    for name, entry in tree.entries.items():
        path = os.path.join(folder, name)
        if isinstance(entry, Link):
            os.symlink(entry.target, path)
            continue
        with open(path, "wb") as file:
            file.write(entry.content)
        os.chmod(path, entry.mode)
    for name in sorted([*tree.entries, *tree.folders(), "."], reverse=True):
        path = os.path.join(folder, name)
        if not os.path.islink(path):
            os.utime(path, (epoch, epoch))
            if os.path.isdir(path):
                os.chmod(path, PROGRAM)
        else:
            os.utime(path, (epoch, epoch), follow_symlinks=False)
