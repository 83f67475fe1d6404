"""What a release consists of, as archives that are the same whenever and wherever they are made: no dates, no owners, files by their names."""

import gzip
import hashlib
import io
import json
import os
import re
import subprocess
import tarfile
import tempfile
from pathlib import Path

ROOT = Path(__file__).resolve().parent.parent
BINDINGS = ROOT / "bindings"
LICENSES = ["LICENSE-APACHE", "LICENSE-MIT"]
# What pkg-config reads: the folder is where its file is.
PC = """\
prefix=${{pcfiledir}}/../..
libdir=${{prefix}}/lib
includedir=${{prefix}}/include

Name: puffgrit
Description: CBOR, CTAP2 and WebAuthn messages, decoded, checked and encoded by proved code
Version: {version}
Libs: -L${{libdir}} -lpuffgrit
Cflags: -I${{includedir}}
"""
METADATA = """\
Metadata-Version: 2.1
Name: {name}
Version: {version}
Summary: {description}
License: MIT OR Apache-2.0
Requires-Python: {requires-python}
Description-Content-Type: text/markdown

"""


def folder(place, suffixes=None):
    """The files of a folder by their paths in it, but for what Python and others leave there."""
    found = {str(it.relative_to(place)): it.read_bytes() for it in sorted(place.rglob("*")) if it.is_file() and "__pycache__" not in it.parts}
    return {name: it for name, it in found.items() if suffixes is None or Path(name).suffix in suffixes}


def licenses():
    return {name: (ROOT / name).read_bytes() for name in LICENSES}


def tar(to, top, files, links=None):
    """Writes a .tar.gz of the files below the folder `top`; `links` are names of links and what they name."""
    packed = io.BytesIO()
    with tarfile.open(fileobj=packed, mode="w", format=tarfile.USTAR_FORMAT) as archive:
        for name in sorted([*files, *(links or {})]):
            entry = tarfile.TarInfo(f"{top}/{name}")
            if name in files:
                entry.size, entry.mode = len(files[name]), 0o755 if ".so" in name else 0o644
                archive.addfile(entry, io.BytesIO(files[name]))
            else:
                entry.type, entry.linkname = tarfile.SYMTYPE, links[name]
                archive.addfile(entry)
    with open(to, "wb") as out, gzip.GzipFile(filename="", mode="wb", fileobj=out, mtime=0) as zipped:
        zipped.write(packed.getvalue())
    return to


def native(to, version, prefix, soname, processor="x86_64"):
    """The library for C on Linux: headers, both libraries and what pkg-config reads, which can be unpacked anywhere."""
    files = {"include/puffgrit.h": (BINDINGS / "c" / "puffgrit.h").read_bytes(), "lib/pkgconfig/puffgrit.pc": PC.format(version=version).encode()}
    files |= {f"lib/{name}": (prefix / "lib" / name).read_bytes() for name in ["libpuffgrit.a", soname]}
    top = f"puffgrit-{version}-{processor}-linux"
    return tar(to / f"{top}.tar.gz", top, {**files, **licenses()}, {"lib/libpuffgrit.so": soname})


def portable(to, top, sources):
    """C99 by the names of its files, with the header."""
    files = {name: (BINDINGS / "c" / name).read_bytes() for name in ["puffgrit.h", "README.md"]} | sources
    return tar(to / f"{top}.tar.gz", top, {**files, **licenses()})


def crate(to, version):
    """The Rust crate, with the C that it compiles."""
    files = folder(BINDINGS / "rust", [".rs"]) | {"Cargo.toml": (BINDINGS / "rust" / "Cargo.toml").read_bytes()}
    files |= {"c/puffgrit.h": (BINDINGS / "c" / "puffgrit.h").read_bytes(), "c/puffgrit_look.c": (BINDINGS / "c" / "portable" / "puffgrit_look.c").read_bytes()}
    return tar(to / f"puffgrit-{version}.crate", f"puffgrit-{version}", {**files, **licenses()})


NPM = ["index.mjs", "index.d.ts", "puffgrit.mjs", "puffgrit.d.ts", "puffgrit_32.wasm", "package.json", "README.md"]
NPM += ["all.mjs", "all.d.ts", "messages.mjs", "messages.d.ts", "kinds.mjs"]


def npm(to, version, module):
    """The calls that look, and all of them by this module."""
    files = {name: (BINDINGS / "wasm" / name).read_bytes() for name in NPM} | {"puffgrit_all_32.wasm": module}
    return tar(to / f"puffgrit-npm-{version}.tgz", "package", {**files, **licenses()})


def inspector(to, version, text):
    """The inspector page, which is one file."""
    made = to / f"puffgrit-inspector-{version}.html"
    made.write_text(text, encoding="utf-8")
    return made


def python_source(to, project):
    """The Python package without the library: it is installed with the one that PUFFGRIT_LIBRARY names, or over the system's."""
    files = folder(BINDINGS / "python", [".py", ".toml", ".md", ".typed"])
    metadata = METADATA.format(**project).encode() + files["README.md"]
    top = f"{project['name']}-{project['version']}"
    return tar(to / f"{top}.tar.gz", top, {**files, **licenses(), "PKG-INFO": metadata})


def platform(library):
    """The tag of a wheel with this library: of the newest version of glibc that its symbols need (PEP 600), at least the oldest that pip
    knows."""
    said = subprocess.run(["objdump", "-T", library], capture_output=True, text=True, check=True).stdout
    newest = max([(2, 5), *(tuple(map(int, it)) for it in re.findall(r"GLIBC_(\d+)\.(\d+)", said))])
    return f"manylinux_{newest[0]}_{newest[1]}_x86_64"


# ---- packages of Debian, by dpkg-deb alone

CONTROL = """\
Package: {name}
Version: {version}
Architecture: amd64
Multi-Arch: same
Maintainer: Puffgrit <puffgrit@localhost>
Section: {section}
Priority: optional
Installed-Size: {size}
Depends: {depends}
Description: {said}
 Messages of CTAP2 and WebAuthn, and data items of CBOR, by proved code.
"""
TRIPLET = "usr/lib/x86_64-linux-gnu"


def debian(to, version, prefix, soname):
    """The shared library, and what compilers need, as two packages; none if dpkg-deb isn't there."""
    number, lib = soname.rpartition(".")[2], prefix / "lib"
    runtime, pc = f"libpuffgrit{number}", PC.replace("${{pcfiledir}}/../..", "/usr").replace("${{prefix}}/lib", f"/{TRIPLET}").format(version=version)
    glibc = ".".join(platform(lib / soname).split("_")[1:3])
    files = {f"{TRIPLET}/{soname}": (lib / soname).read_bytes()}
    control = {"shlibs": f"libpuffgrit {number} {runtime} (>= {version})\n", "triggers": "activate-noawait ldconfig\n"}
    made = [package(to, runtime, version, ("libs", f"libc6 (>= {glibc})", "proved decoders of CTAP2 and WebAuthn"), files, control)]
    files = {f"{TRIPLET}/libpuffgrit.a": (lib / "libpuffgrit.a").read_bytes(), f"{TRIPLET}/pkgconfig/puffgrit.pc": pc.encode()}
    files["usr/include/puffgrit.h"] = (BINDINGS / "c" / "puffgrit.h").read_bytes()
    said = ("libdevel", f"{runtime} (= {version})", "proved decoders of CTAP2 and WebAuthn (for C)")
    return [*made, package(to, "libpuffgrit-dev", version, said, files, {}, {f"{TRIPLET}/libpuffgrit.so": soname})]


def package(to, name, version, said, files, control, links=None):
    """Writes a package with these files; what it says of itself is its section, what it depends on, and a line."""
    files = {**files, f"usr/share/doc/{name}/copyright": b"".join(it for _, it in sorted(licenses().items()))}
    size = sum(-(-len(it) // 1024) for it in files.values())
    control = {**control, "md5sums": "".join(f"{hashlib.md5(it).hexdigest()}  {path}\n" for path, it in sorted(files.items()))}
    control["control"] = CONTROL.format(name=name, version=version, section=said[0], depends=said[1], said=said[2], size=size)
    with tempfile.TemporaryDirectory() as root:
        for path, content in {**files, **{f"DEBIAN/{it}": text.encode() for it, text in control.items()}}.items():
            file = Path(root, path)
            file.parent.mkdir(parents=True, exist_ok=True)
            file.write_bytes(content)
        for path, aim in (links or {}).items():
            Path(root, path).symlink_to(aim)
        for it in [Path(root), *Path(root).rglob("*")]:
            if not it.is_symlink():
                it.chmod(0o755 if it.is_dir() else 0o644)
        made = to / f"{name}_{version}_amd64.deb"
        # All files get this date: the beginning of 2020.
        environment = {**os.environ, "SOURCE_DATE_EPOCH": "1577836800"}
        subprocess.run(["dpkg-deb", "--root-owner-group", "-Zgzip", "--build", root, made], check=True, capture_output=True, env=environment)
    return made


# ---- what is in a release


LICENSE = [{"expression": "MIT OR Apache-2.0"}]


def library(name, version, **more):
    return {"type": "library", "bom-ref": name, "name": name, "version": version, **more}


def bill(to, version, kit, crates, archives):
    """The bill of materials (CycloneDX 1.5): the crates that were proved, the toolchain's libraries that they stand on, and the archives."""
    ours = {it.name for it in crates}
    theirs = sorted({it for crate in crates for it in ["std", *crate.uses]} - ours)
    components = [library(it.name, version, licenses=LICENSE) for it in sorted(crates, key=lambda it: it.name)]
    components += [library(it, kit, description="a library of the Rattle toolchain") for it in theirs]
    for it in sorted(archives):
        said = {"alg": "SHA-256", "content": hashlib.sha256(it.read_bytes()).hexdigest()}
        components.append({"type": "file", "bom-ref": it.name, "name": it.name, "hashes": [said]})
    edges = [{"ref": it.name, "dependsOn": sorted({"std", *it.uses})} for it in sorted(crates, key=lambda it: it.name)]
    edges.append({"ref": "puffgrit", "dependsOn": sorted(it.name for it in crates if it.is_static)})
    tool = {"type": "application", "name": "rattle", "version": kit}
    about = {"tools": {"components": [tool]}, "component": library("puffgrit", version, licenses=LICENSE)}
    said = {"bomFormat": "CycloneDX", "specVersion": "1.5", "version": 1, "metadata": about, "components": components, "dependencies": edges}
    made = to / f"puffgrit-{version}.cdx.json"
    made.write_text(json.dumps(said, indent=1) + "\n", encoding="utf-8")
    return made
