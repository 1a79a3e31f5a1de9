"""The Python wheel: the package of bindings/python with the shared library inside. Where there is no such folder no wheel is made."""
import base64
import hashlib
import os
import sys
import time
import tomllib

from release import MACHINE, ROOT, refuse
from tree import Tree, write_zip

FROM = "bindings/python"
PACKAGE = "beanwhile_h3"


def sources(release):
    """the files of the package, by their paths in the wheel, and what pyproject.toml says of the project"""
    tree = release.committed(FROM)
    roots = sorted(os.path.dirname(path) for path in tree.entries if path.endswith(f"/{PACKAGE}/__init__.py"))
    if len(roots) != 1 or f"{FROM}/pyproject.toml" not in tree.entries:
        refuse(f"{FROM} has to have one package {PACKAGE} and a pyproject.toml")
    above = os.path.dirname(roots[0])
    package = Tree({path.removeprefix(f"{above}/"): it for path, it in tree.entries.items() if path.startswith(f"{roots[0]}/")})
    return package, tomllib.loads(tree.entries[f"{FROM}/pyproject.toml"].content.decode())["project"]


def version(release):
    """by PEP 440; one without proofs comes before the release"""
    return release.version if release.is_proved else f"{release.version}.dev0+unproved"


def metadata(release, project):
    lines = ["Metadata-Version: 2.1", f"Name: {project['name']}", f"Version: {version(release)}",
             f"Summary: {project.get('description', '')} ({release.state.split(':')[0].rstrip('.')})", "License: MIT",
             f"Requires-Python: {project.get('requires-python', '>=3.9')}"]
    lines += [f"Requires-Dist: {it}" for it in project.get("dependencies", [])]
    return "\n".join(lines) + f"\n\n{release.about()}"


def record(tree, path):
    """the lines of RECORD: a path, its checksum and its size"""
    lines = []
    for name, entry in tree.entries.items():
        digest = base64.urlsafe_b64encode(hashlib.sha256(entry.content).digest()).rstrip(b"=").decode()
        lines.append(f"{name},sha256={digest},{len(entry.content)}")
    return "\n".join([*lines, f"{path},,"]) + "\n"


def make(release, to):
    if not os.path.isdir(f"{ROOT}/{FROM}"):
        print(f"left out: the Python wheel, since there is no {FROM}", file=sys.stderr)
        return
    package, project = sources(release)
    package.add(f"{PACKAGE}/{release.shared}", release.stripped(f"{release.folder}/{release.shared}"), 0o755)
    tree = Tree(sorted(package.entries.items()))
    tag = f"py3-none-manylinux_{release.glibc().replace('.', '_')}_{MACHINE}"
    info = f"{PACKAGE}-{version(release)}.dist-info"
    tree.add(f"{info}/METADATA", metadata(release, project))
    tree.add(f"{info}/WHEEL", f"Wheel-Version: 1.0\nGenerator: beanwhile\nRoot-Is-Purelib: false\nTag: {tag}\n")
    tree.add(f"{info}/LICENSE", release.committed("LICENSE").entries["LICENSE"].content)
    tree.add(f"{info}/THIRD-PARTY", release.notices.text())
    path = f"{info}/RECORD"
    tree.add(path, record(tree, path))
    moment = time.gmtime(release.epoch)[:6]
    write_zip(tree, f"{to}/{PACKAGE}-{version(release)}-{tag}.whl", moment)
