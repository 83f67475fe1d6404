"""Keeps the LLVM bitcode that `rattle build` gives clang, in out/bitcode: by a toolchain folder in whose place stands the kit's, but for a
`clang` that copies the bitcode before it compiles it. rattle has no option that leaves it."""

import hashlib
import shutil
import subprocess
import tempfile
from pathlib import Path

ROOT = Path(__file__).resolve().parent.parent
KEPT = ROOT / "out" / "bitcode"

CLANG = """\
#!/bin/sh
[ ! -f module.bc ] || cp module.bc {kept} || exit 1
exec {clang} "$@"
"""


def stand_in(folder, toolchain, script):
    """Fills the folder with links to the toolchain, but for `clang`, which is this script."""
    (folder / "bin").mkdir()
    (folder / "lib").symlink_to(toolchain / "lib")
    for tool in (toolchain / "bin").iterdir():
        if tool.name != "clang":
            (folder / "bin" / tool.name).symlink_to(tool)
    clang = folder / "bin" / "clang"
    clang.write_text(script, encoding="utf-8")
    clang.chmod(0o755)


def sum_of(crate, kit):
    """A sum of all that the bitcode is made of: the toolchain, and the files of the crate and of those below it."""
    found = hashlib.sha256((kit / "KIT-ID").read_bytes())
    for it in [crate, *crate.below]:
        found.update(repr([it.name, it.uses]).encode())
        for file in it.sources():
            found.update(repr([str(file.relative_to(it.folder)), file.read_bytes()]).encode())
    return found.hexdigest()


def files(crate):
    return KEPT / f"{crate.name}.bc", KEPT / f"{crate.name}.sum"


def find(crate, kit):
    """The crate's bitcode, if what is kept was made of the sources as they are."""
    kept, made_of = files(crate)
    is_current = kept.is_file() and made_of.is_file() and made_of.read_text(encoding="utf-8") == sum_of(crate, kit)
    return kept.read_bytes() if is_current else None


def build(crate, command, kit):
    """Runs this `rattle build` of a crate, and keeps its bitcode; returns the status."""
    kept, made_of = files(crate)
    KEPT.mkdir(parents=True, exist_ok=True)
    made_of.unlink(missing_ok=True)
    wanted = sum_of(crate, kit)
    # rt refuses links inside a repository.
    with tempfile.TemporaryDirectory() as name:
        left = Path(name) / "kept.bc"
        stand_in(Path(name), kit / "toolchain", CLANG.format(kept=left, clang=kit / "toolchain" / "bin" / "clang"))
        words = [name if it == f"{kit}/toolchain" else it for it in command]
        status = subprocess.run(words, cwd=crate.folder, check=False).returncode
        if status == 0:
            shutil.move(left, kept)
            made_of.write_text(wanted, encoding="utf-8")
    return status
