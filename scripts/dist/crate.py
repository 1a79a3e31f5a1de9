"""The Rust crate with the archives inside: Cargo builds a program over it with no kit, no pkg-config and no network."""
import re

from release import refuse
from tree import Tree, write_tar

FROM = "bindings/rust"
ARCHIVES = "native/x86_64-unknown-linux-gnu"  # where build.rs looks first


def make(release, to):
    tree = Tree({path.removeprefix(f"{FROM}/"): entry for path, entry in release.committed(FROM).entries.items()})
    tree.entries.update(release.archives().below(ARCHIVES).entries)
    tree.entries.update(release.committed("LICENSE").entries)
    manifest, count = re.subn(r'^version = ".*"$', f'version = "{release.label}"', tree.entries["Cargo.toml"].content.decode(), flags=re.M)
    if count != 1:
        refuse(f"{FROM}/Cargo.toml has {count} lines with a version")
    tree.add("Cargo.toml", manifest)
    tree.add("RELEASE", release.about())
    tree.add("THIRD-PARTY", release.notices.text())
    name = f"beanwhile-h3-{release.label}"
    write_tar(tree.below(name), f"{to}/{name}.crate", release.epoch)
