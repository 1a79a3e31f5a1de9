"""What a release is made of: the library of one folder, and the commit that it was built from. What does not fit together is refused."""
import ctypes
import os
import re
import subprocess
import sys
import tempfile

from notices import Notices
from tree import Tree

ROOT = os.path.dirname(os.path.dirname(os.path.dirname(os.path.realpath(__file__))))
UNPROVED_BIT = 1 << 31  # of h3_version
MACHINE = "x86_64"  # as `rt` compiles
GATE_LOG = os.path.join(ROOT, "build", "gate.log")


def refuse(why):
    sys.exit(f"make dist: {why}")


def said(*words):
    return subprocess.run(words, cwd=ROOT, check=True, capture_output=True, text=True).stdout


def read(path):
    with open(path, encoding="utf-8") as file:
        return file.read()


class Release:
    def __init__(self, folder):
        self.folder = os.path.abspath(folder)
        if not os.path.exists(f"{self.folder}/libbeanwhile_h3.a"):
            refuse(f"there is no {folder}/libbeanwhile_h3.a: run 'make lib' first")
        self.version = re.search(r'#define H3_VERSION_TEXT "(.*)"', read(f"{ROOT}/include/h3.h"))[1]
        self.major = self.version.split(".", 1)[0]
        self.is_proved = self.judge_mark()
        self.sources = self.judge_sources()
        self.commit = said("git", "rev-parse", "HEAD").strip()
        self.is_clean = not said("git", "status", "--porcelain").strip()
        if self.is_proved and not self.is_clean:
            refuse("files differ from those of the commit: a release is made of a commit")
        self.epoch = int(said("git", "log", "-1", "--format=%ct"))
        self.gate = self.gate_log()
        self.notices = Notices(ROOT, f"{self.folder}/libbeanwhile_h3.a")

    @property
    def shared(self):
        return f"libbeanwhile_h3.so.{self.major}"

    @property
    def label(self):
        """the version as names of files have it"""
        return self.version if self.is_proved else f"{self.version}-unproved"

    @property
    def state(self):
        """one sentence for whoever reads what an artefact says of itself"""
        return "Proved." if self.is_proved else "UNPROVED: built without its proofs. Programs should stand on a proved library."

    def judge_mark(self):
        """whether the library was proved, as it says itself and as its folder says"""
        library = ctypes.CDLL(f"{self.folder}/{self.shared}")
        library.h3_raw_version.restype = ctypes.c_uint32
        number = library.h3_raw_version()
        wanted = int("".join(f"{int(it):02x}" for it in self.version.split(".")), 16)
        if number & ~UNPROVED_BIT != wanted:
            refuse(f"the library has version {number & ~UNPROVED_BIT:#x}, and include/h3.h {self.version}")
        is_proved = not number & UNPROVED_BIT
        if is_proved == os.path.exists(f"{self.folder}/UNPROVED"):
            refuse(f"{self.folder} says of its proofs something else than h3_version of its library")
        if not is_proved and os.environ.get("UNPROVED") != "1":
            refuse(f"{self.folder} was built without its proofs: run 'make lib' first (UNPROVED=1 packs it, and marks all as unproved)")
        return is_proved

    def judge_sources(self):
        """the checksum of the sources, which are those of the library"""
        sources = said("bash", "scripts/c/sources.sh").strip()
        if subprocess.run(["bash", "scripts/c/made_of.sh", "is", self.folder, sources], cwd=ROOT, check=False).returncode:
            refuse(f"{self.folder} is not of the sources that are here: build it again")
        for name in ("h3.h", "h3.hpp"):
            if read(f"{self.folder}/beanwhile/{name}") != read(f"{ROOT}/include/{name}"):
                refuse(f"{self.folder}/beanwhile/{name} is not include/{name}: build it again")
        return sources

    def gate_log(self):
        """what the gate said, where it passed over these very sources"""
        if not os.path.exists(GATE_LOG):
            return None
        text = read(GATE_LOG)
        return text if text.startswith(f"sources {self.sources} commit ") else None

    def about(self):
        """the text of the file RELEASE in an artefact"""
        gate = "no log of the gate over these sources was at hand"
        if self.gate:
            gate = f"gate.log, beside this file in the tarball, of commit {self.gate.split(' ', 4)[3]}"
        commit = self.commit if self.is_clean else f"{self.commit} and changes that were not committed"
        return f"""beanwhile-h3 {self.label}
{self.state}
commit   {commit}
sources  {self.sources} (scripts/c/sources.sh)
gate     {gate}
machine  {MACHINE}-linux, glibc {self.glibc()} or later
"""

    def glibc(self, *others):
        """the newest version of glibc that the shared library asks for, or others do"""
        paths = others or [f"{self.folder}/{self.shared}"]
        names = re.findall(r"GLIBC_(\d+)\.(\d+)", said("objdump", "-T", *paths))
        if not names:
            refuse(f"{' '.join(paths)}: no version of glibc is asked for")
        return ".".join(max(names, key=lambda it: tuple(map(int, it))))

    @staticmethod
    def stripped(path):
        """the bytes of a shared library without what no program needs"""
        with tempfile.TemporaryDirectory() as room:
            said("strip", "--strip-unneeded", "--remove-section=.comment", "-o", f"{room}/out", path)
            with open(f"{room}/out", "rb") as file:
                return file.read()

    def archives(self):
        """the two archives, by their names"""
        tree = Tree()
        for name in ("libbeanwhile_h3.a", "libbeanwhile_h3_shim.a"):
            tree.take(f"{self.folder}/{name}", name)
        return tree

    def installed(self, prefix, libdir):
        """the files as `make install` puts them, with the shared library stripped"""
        with tempfile.TemporaryDirectory() as room:
            words = {"LIB": self.folder, "DESTDIR": room, "PREFIX": prefix, "LIBDIR": libdir, "UNPROVED": "" if self.is_proved else "1"}
            subprocess.run(["bash", "scripts/c/install.sh"], cwd=ROOT, check=True, env={**os.environ, **words}, stdout=subprocess.DEVNULL)
            tree = Tree()
            tree.take_folder(room)
        at = f"{prefix.strip('/')}/{libdir}/{self.shared}".strip("/")
        tree.add(at, self.stripped(f"{self.folder}/{self.shared}"))
        return tree

    def committed(self, *paths):
        """files of the repository that git knows, by their paths"""
        tree = Tree()
        for path in said("git", "ls-files", "-z", *paths).split("\0"):
            if path and os.path.lexists(f"{ROOT}/{path}") and not os.path.basename(path).startswith("."):
                tree.take(f"{ROOT}/{path}", path)
        return tree
