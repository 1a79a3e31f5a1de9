"""The Go module with the archives and the header inside: `go build` makes a program over it by cgo, with no kit and no network."""
from release import refuse
from tree import Tree, write_tar

FROM = "bindings/go"
FOUND = "#cgo pkg-config: beanwhile-h3\n"
CARRIED = """#cgo linux,amd64 CFLAGS: -I${SRCDIR}
#cgo linux,amd64 LDFLAGS: ${SRCDIR}/libbeanwhile_h3.a ${SRCDIR}/libbeanwhile_h3_shim.a
"""
FOUND_TEXT = "// The library is found by pkg-config, as beanwhile-h3.\n"
CARRIED_TEXT = "// The library is in this folder: libbeanwhile_h3.a, for Linux on x86-64. {}\n"


def replaced(text, old, new):
    if text.count(old) != 1:
        refuse(f"{FROM}/h3.go has {text.count(old)} times {old!r}")
    return text.replace(old, new)


def make(release, to):
    tree = Tree({path.removeprefix(f"{FROM}/"): entry for path, entry in release.committed(FROM).entries.items()})
    code = replaced(tree.entries["h3.go"].content.decode(), FOUND, CARRIED)
    tree.add("h3.go", replaced(code, FOUND_TEXT, CARRIED_TEXT.format(release.state)))
    # beside the Go files, since `go mod vendor` copies the folders of packages alone
    tree.entries.update(release.archives().entries)
    tree.take(f"{release.folder}/beanwhile/h3.h", "h3.h")
    tree.entries.update(release.committed("LICENSE").entries)
    tree.add("RELEASE", release.about())
    tree.add("THIRD-PARTY", release.notices.text())
    name = f"beanwhile-h3-go-{release.label}"
    write_tar(tree.below(name), f"{to}/{name}.tar.gz", release.epoch)
