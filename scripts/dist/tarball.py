"""The tarball: archives, shared library, headers, package files, examples, pages, licence and checksums, for any distribution."""
from release import MACHINE
from tree import Tree, write_tar

PAGES = ["README.md", "CHANGELOG.md", "SECURITY.md", "LICENSE", "docs"]
# what the Makefiles of the examples call, and the packages that they stand on
EXAMPLES = ["examples", "bindings", "scripts/dev/need.sh"]


def make(release, to):
    tree = Tree(release.committed(*PAGES, *EXAMPLES).entries)
    tree.entries.update(release.installed("/", "lib").entries)
    tree.add("RELEASE", release.about())
    tree.add("THIRD-PARTY", release.notices.text())
    if release.gate:
        tree.add("gate.log", release.gate)
    tree.add("SHA256SUMS", tree.checksums())
    name = f"beanwhile-h3-{release.label}-linux-{MACHINE}"
    write_tar(tree.below(name), f"{to}/{name}.tar.gz", release.epoch)
