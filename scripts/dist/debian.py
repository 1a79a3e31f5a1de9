"""The Debian packages: libbeanwhile-h3-1, the shared library; libbeanwhile-h3-dev, what programs are built with; and, if build/compat has it,
libbeanwhile-h3-nghttp3, the drop-in for nghttp3. Each is a function of PACKAGES."""
import ctypes
import email.utils
import glob
import gzip
import os
import re
import subprocess
import sys
import tempfile
import textwrap
from dataclasses import dataclass, field

from release import ROOT, read, refuse
from tree import Tree, write_folder

SOURCE = "beanwhile-h3"
ARCHITECTURE = "amd64"
LIBDIR = "lib/x86_64-linux-gnu"
PURPOSE = """Beanwhile turns the stream bytes of a QUIC library into HTTP/3 messages and back (RFC 9114, with QPACK, RFC 9204), for clients,
servers and proxies."""
MAINTAINER = "Beanwhile maintainers <maintainers@beanwhile.example>"
EXAMPLES = ["examples/c", "examples/start/main.c", "examples/start/main.cpp", "tests/c/in_memory.c"]
PAGES = ["docs/GUIDE.md", "docs/C_API.md", "SECURITY.md"]


@dataclass
class Package:
    name: str
    section: str
    depends: list
    summary: str
    text: str
    tree: Tree
    control: Tree = field(default_factory=Tree)  # further files for dpkg
    said: list = field(default_factory=list)  # tags of lintian that are meant, with the reason of each


NOT_OF_DEBIAN = ("initial-upload-closes-no-bugs", "this package is the project's own, and no upload to Debian")
LINK_ELSEWHERE = ("lacks-unversioned-link-to-shared-library", "the link lies in beanwhile-h3/, so that -lbeanwhile_h3 means the archive")
AS_PROVED = ("static-library-has-unneeded-sections", "the archives are byte for byte those that were built and checked")


def version(release):
    """one without proofs comes before the release"""
    return f"{release.version}{'' if release.is_proved else '~unproved'}-1"


def shared_library(release):
    name = f"libbeanwhile-h3-{release.major}"
    installed = release.installed("/usr", LIBDIR)
    at = f"usr/{LIBDIR}/{release.shared}"
    tree = Tree({at: installed.entries[at]})
    tree.add(at, tree.entries[at].content)  # with no bit of a program, as Debian's libraries are
    text = "This package has the shared library."
    package = Package(name, "libs", [f"libc6 (>= {release.glibc()})"], "HTTP/3 connection core, shared library", text, tree)
    package.said = [LINK_ELSEWHERE]
    exports = sorted(re.findall(r"\b(h3_raw_\w+)\(", read(f"{ROOT}/include/h3.h").split("---- the functions above", 1)[0]))
    symbols = "".join(f" {it}@Base {release.version}\n" for it in dict.fromkeys(exports))
    package.control.add("symbols", f"{release.shared} {name} #MINVER#\n* Build-Depends-Package: libbeanwhile-h3-dev\n{symbols}")
    package.control.add("shlibs", f"{release.shared.rsplit('.so.', 1)[0]} {release.major} {name} (>= {version(release)})\n")
    package.control.add("triggers", "activate-noawait ldconfig\n")
    return package


def development(release):
    tree = release.installed("/usr", LIBDIR)
    tree.entries.pop(f"usr/{LIBDIR}/{release.shared}")
    name = "libbeanwhile-h3-dev"
    for path, entry in release.committed(*EXAMPLES).entries.items():
        tree.entries[f"usr/share/doc/{name}/examples/{path.removeprefix('examples/').removeprefix('tests/c/')}"] = entry
    for path, entry in release.committed(*PAGES).entries.items():
        tree.entries[f"usr/share/doc/{name}/{os.path.basename(path)}"] = entry
    depends = [f"libbeanwhile-h3-{release.major} (= {version(release)})"]
    text = "This package has the static archives, the headers for C and C++, the files of pkg-config and CMake, and examples."
    package = Package(name, "libdevel", depends, "HTTP/3 connection core, for building programs", text, tree)
    package.said = [AS_PROVED]
    return package


class Nghttp3Info(ctypes.Structure):
    _fields_ = [("age", ctypes.c_int), ("number", ctypes.c_int), ("text", ctypes.c_char_p)]


def judge_drop_in(release, path):
    """is it over this very library?"""
    library = ctypes.CDLL(path)
    library.nghttp3_version.restype = ctypes.POINTER(Nghttp3Info)
    text = library.nghttp3_version(0).contents.text.decode()
    is_older = os.stat(path).st_mtime < os.stat(f"{release.folder}/libbeanwhile_h3.a").st_mtime
    if is_older or f"-beanwhile-{release.version}" not in text or ("UNPROVED" in text) == release.is_proved:
        refuse(f"{path} ({text}) is not over the library of {release.folder}: build it again, or remove it")


def nghttp3(release):
    """in a folder of its own, since Debian's libnghttp3 has the same names. DROP_IN=no leaves it out"""
    if os.environ.get("DROP_IN") == "no":
        return None
    found = sorted(glob.glob(f"{ROOT}/build/compat/libnghttp3.so.[0-9]"))
    if not found:
        print("left out: the package libbeanwhile-h3-nghttp3, since build/compat has no libnghttp3.so", file=sys.stderr)
        return None
    folder = f"usr/{LIBDIR}/beanwhile-h3/nghttp3"
    tree = Tree()
    for path in found:
        judge_drop_in(release, path)
        tree.add(f"{folder}/{os.path.basename(path)}", release.stripped(path))
    text = f"This package has a drop-in for nghttp3. A program that stands on nghttp3 takes it with LD_LIBRARY_PATH=/{folder}."
    depends = [f"libc6 (>= {release.glibc(*found)})"]
    return Package("libbeanwhile-h3-nghttp3", "libs", depends, "HTTP/3 connection core, in the place of nghttp3", text, tree)


PACKAGES = [shared_library, development, nghttp3]


def paragraph(text):
    return textwrap.fill(text, 78, initial_indent=" ", subsequent_indent=" ")


def control(release, package):
    size = (package.tree.size() + 1023) // 1024
    return f"""Package: {package.name}
Source: {SOURCE}
Version: {version(release)}
Architecture: {ARCHITECTURE}
Multi-Arch: same
Maintainer: {MAINTAINER}
Installed-Size: {size}
Depends: {', '.join(package.depends)}
Section: {package.section}
Priority: optional
Description: {package.summary}{'' if release.is_proved else ' (UNPROVED)'}
{paragraph(PURPOSE)}
 .
{paragraph(release.state)}
 .
{paragraph(package.text)}
"""


def continued(text):
    """the lines of a field after its first"""
    return "\n".join(f" {line.rstrip()}" if line.strip() else " ." for line in text.strip().split("\n"))


def copyright_text(release):
    body = continued(release.committed("LICENSE").entries["LICENSE"].content.decode())
    return f"""Format: https://www.debian.org/doc/packaging-manuals/copyright-format/1.0/
Upstream-Name: beanwhile-h3
Comment:
{continued(release.notices.summary)}
 The texts are in THIRD-PARTY, beside this file.

Files: *
Copyright: 2026 Beanwhile maintainers
License: Expat

License: Expat
{body}
"""


def changelog(release):
    text = f"""{SOURCE} ({version(release)}) unstable; urgency=medium

  * Built from commit {release.commit[:12]}. {release.state.split(':')[0].rstrip('.')}.

 -- {MAINTAINER}  {email.utils.formatdate(release.epoch)}
"""
    return gzip.compress(text.encode(), 9, mtime=0)


def make_package(release, package, to):
    documents = f"usr/share/doc/{package.name}"
    tree = package.tree
    tree.add(f"{documents}/copyright", copyright_text(release))
    tree.add(f"{documents}/THIRD-PARTY", release.notices.text())
    tree.add(f"{documents}/changelog.Debian.gz", changelog(release))
    tree.add(f"{documents}/RELEASE", release.about())
    lines = "".join(f"# {why}\n{package.name}: {tag}\n" for tag, why in [NOT_OF_DEBIAN, *package.said])
    tree.add(f"usr/share/lintian/overrides/{package.name}", lines)
    package.control.add("control", control(release, package))
    package.control.add("md5sums", tree.checksums("md5"))
    whole = Tree({**tree.entries, **package.control.below("DEBIAN").entries})
    with tempfile.TemporaryDirectory() as room:
        folder = f"{room}/{package.name}"
        os.mkdir(folder)
        write_folder(whole, folder, release.epoch)
        path = f"{to}/{package.name}_{version(release)}_{ARCHITECTURE}.deb"
        words = ["dpkg-deb", "--root-owner-group", "--threads-max=1", "-Zxz", "--build", folder, path]
        subprocess.run(words, check=True, stdout=subprocess.DEVNULL, env={**os.environ, "SOURCE_DATE_EPOCH": str(release.epoch)})


def make(release, to):
    for package in (it(release) for it in PACKAGES):
        if package is not None:
            make_package(release, package, to)
