"""Uses what tools/release made as somebody has it who has neither the toolchain nor the network: each archive is unpacked or installed in a
folder of its own, and prints the algorithms of bench/messages/info.hex; and those that decode, also why a request is refused, by README's
lines of C and Python."""

import functools
import os
import shutil
import subprocess
import sys
import tarfile
import tempfile
import urllib.parse
import zipfile
from pathlib import Path

import browser
import copies
import docs
import needs

ROOT = Path(__file__).resolve().parent.parent
INFO = ROOT / "bench" / "messages" / "info.hex"
ALGORITHMS = "-7\n-8\n"
# What is wrong with {1: true} as an authenticatorMakeCredential request.
WHY = "clientDataHash: a byte string is wanted (offset 2, length 1)\n"

JAVASCRIPT = """\
import { readFileSync } from "node:fs";
import puffgrit, { NEGATIVE } from "puffgrit";
import all, { Fault } from "puffgrit/all";
const bytes = new Uint8Array(Buffer.from(readFileSync(process.argv[2], "utf8").trim(), "hex"));
const list = puffgrit.member(bytes, 0, 10);
for (let at = list.content; at < list.end; at = puffgrit.itemAt(bytes, at).end) {
  const algorithm = puffgrit.member(bytes, at, "alg");
  console.log(String(algorithm.kind === NEGATIVE ? -1n - algorithm.number : algorithm.number));
}
const decoded = all.decode("info", bytes), again = all.rewrite("info", bytes);
if (!decoded.versions.includes("FIDO_2_0") || all.explain("info", again) || !(all.explain("info", bytes.slice(1)) instanceof Fault)) process.exit(1);
console.log(all.explain("mc-request", Uint8Array.of(0xa1, 1, 0xf5)).explanation);
"""

RUST = """\
use puffgrit::{member, Key};
#[cfg(feature = "whole")]
fn explain() {
    if let Ok(puffgrit::Verdict::Rejected(why)) = puffgrit::explain(puffgrit::Kind::MakeCredentialRequest, b"\\xa1\\x01\\xf5", &mut [0; 200]) {
        println!("{}", why.text);
    }
}
#[cfg(not(feature = "whole"))]
fn explain() {}
fn main() {
    let text = std::fs::read_to_string(std::env::args().nth(1).unwrap()).unwrap();
    let text = text.trim();
    let bytes: Vec<u8> = (0..text.len()).step_by(2).map(|k| u8::from_str_radix(&text[k..k + 2], 16).unwrap()).collect();
    for algorithm in member(&bytes, 0, Key::Number(10)).unwrap().elements_in(&bytes) {
        println!("{}", algorithm.member_in(&bytes, Key::Name("alg")).unwrap().integer().unwrap());
    }
    explain();
}
"""
CARGO = '[package]\nname = "user"\nversion = "0.1.0"\nedition = "2021"\n\n[dependencies]\npuffgrit = {{ path = "{crate}" }}\n'
CARGO += '\n[features]\nwhole = ["puffgrit/whole"]\n'


def lines_of_readme(language):
    """README's lines on why a request is refused."""
    return next(it.text for it in docs.blocks("README.md") if it.language == language)


@functools.cache
def alone():
    """What runs a command without a network, where that is allowed."""
    words = ["unshare", "--net"]
    is_allowed = shutil.which(words[0]) and subprocess.run([*words, "true"], capture_output=True, check=False).returncode == 0
    return words if is_allowed else []


def run(words, folder, **more):
    """What the command prints, without the toolchain on the path and without a network; its error if it fails."""
    environment = {key: it for key, it in os.environ.items() if not key.startswith(("PYTHON", "PUFFGRIT"))}
    environment |= {"PATH": os.environ["PATH"] if shutil.which("rt") is None else without_rt(), "PYTHONDONTWRITEBYTECODE": "1", **more}
    done = subprocess.run([*alone(), *(str(it) for it in words)], cwd=folder, env=environment, stdin=INFO.open("rb"), capture_output=True, text=True, check=False)
    return done.stdout if done.returncode == 0 else f"{words[0]} ended with {done.returncode}: {done.stderr[-400:]}"


def without_rt():
    """The path without the folders in which rt is."""
    kept = [it for it in os.environ["PATH"].split(":") if not (Path(it) / "rt").exists()]
    return ":".join([*kept, copies.WITHOUT_RT])


def unpacked(archive, folder):
    """The one folder in the archive."""
    with tarfile.open(archive) as it:
        # Python 3.11.4 and later warn of an archive that isn't asked to be harmless.
        it.extractall(folder, **({"filter": "data"} if hasattr(tarfile, "data_filter") else {}))
    return next(it for it in folder.iterdir() if it.is_dir())


def programs(folder, words, runner=(), names=("algorithms", "why"), **more):
    """What bindings/c/algorithms.c and README's lines of C print, compiled by these words, which `SOURCE` stands in."""
    (folder / "why.c").write_text(lines_of_readme("c"), encoding="utf-8")
    sources = {"algorithms": ROOT / "bindings" / "c" / "algorithms.c", "why": folder / "why.c"}
    said = ""
    for name in names:
        compiler = [sources[name] if it == "SOURCE" else it for it in words]
        said += run([*compiler, "-o", folder / name], folder) + run([*runner, folder / name], folder, **more)
    return said


def native(archive, folder):
    """With the words of pkg-config, if it is there, and by the shared library; and with the static one."""
    top = unpacked(archive, folder)
    words = [f"-I{top}/include", f"-L{top}/lib", "-lpuffgrit"]
    if shutil.which("pkg-config"):
        words = run(["pkg-config", "--cflags", "--libs", "puffgrit"], folder, PKG_CONFIG_PATH=f"{top}/lib/pkgconfig").split()
    said = programs(folder, [*needs.CC, "SOURCE", *words, f"-Wl,-rpath,{top}/lib"])
    return said if said != ALGORITHMS + WHY else programs(folder, [*needs.CC, "SOURCE", f"-I{top}/include", top / "lib" / "libpuffgrit.a"])


def aarch64(archive, folder):
    """With the static library, under qemu."""
    compiler, emulator = "aarch64-linux-gnu-gcc", "qemu-aarch64"
    if not shutil.which(compiler) or not shutil.which(emulator):
        return None
    top = unpacked(archive, folder)
    return programs(folder, [compiler, "-static", "SOURCE", f"-I{top}/include", top / "lib" / "libpuffgrit.a"], [emulator])


def portable(archive, folder, names=("algorithms", "why")):
    """With the one file of C99 that is in it."""
    top = unpacked(archive, folder)
    words = [*needs.CC, "-std=c99", "-Wall", "-Wextra", "-pedantic", "-Werror", f"-I{top}"]
    said = run([*words, "-c", *top.glob("*.c"), "-o", folder / "puffgrit.o"], folder)
    return said + programs(folder, [*words, "SOURCE", folder / "puffgrit.o"], names=names)


def looking(archive, folder):
    return portable(archive, folder, ["algorithms"])


def debian(archive, folder):
    """Both packages, in a folder that stands for the root."""
    for it in archive.parent.glob("*.deb"):
        subprocess.run(["dpkg-deb", "--extract", it, folder], check=True)
    lib = folder / "usr" / "lib" / "x86_64-linux-gnu"
    words = [f"-I{folder}/usr/include", f"-L{lib}", "-lpuffgrit"]
    if shutil.which("pkg-config"):
        said = {"PKG_CONFIG_PATH": f"{lib}/pkgconfig", "PKG_CONFIG_SYSROOT_DIR": str(folder)}
        said |= {"PKG_CONFIG_ALLOW_SYSTEM_CFLAGS": "1", "PKG_CONFIG_ALLOW_SYSTEM_LIBS": "1"}
        words = run(["pkg-config", "--cflags", "--libs", "puffgrit"], folder, **said).split()
    return programs(folder, [*needs.CC, "SOURCE", *words], LD_LIBRARY_PATH=str(lib))


def scripts(folder, python, **more):
    """What bindings/python/algorithms.py and README's lines of Python print."""
    # Copies, since Python looks for modules beside a script first.
    script = shutil.copy(ROOT / "bindings" / "python" / "algorithms.py", folder)
    (folder / "why.py").write_text(lines_of_readme("python"), encoding="utf-8")
    return run([python, script], folder, **more) + run([python, folder / "why.py"], folder, **more)


def environment(folder, modules, flags=()):
    """The Python of an environment of its own that has pip and these modules; None where there is none."""
    made = subprocess.run([sys.executable, "-m", "venv", *flags, folder / "venv"], capture_output=True, check=False)
    python = folder / "venv" / "bin" / "python"
    words = [python, "-c", f"import {', '.join(modules)}"]
    return python if made.returncode == 0 and subprocess.run(words, capture_output=True, check=False).returncode == 0 else None


INSTALL = ["-m", "pip", "install", "--quiet", "--no-index", "--no-build-isolation"]


def library_beside(archive, folder):
    """The shared library of the archive for C."""
    return str(unpacked(next(archive.parent.glob("*-x86_64-linux.tar.gz")), folder) / "lib" / "libpuffgrit.so")


def python_source(archive, folder):
    """By pip with the library of the archive for C, which is taken along, or unpacked where there is nothing to build it with."""
    library = library_beside(archive, folder / "prefix")
    python = environment(folder, ["setuptools", "wheel", "pip"], ["--system-site-packages"])
    if python:
        return run([python, *INSTALL, archive], folder, PUFFGRIT_LIBRARY=library) + scripts(folder, python)
    return scripts(folder, sys.executable, PYTHONPATH=str(unpacked(archive, folder / "source")), PUFFGRIT_LIBRARY=library)


def wheel(archive, folder):
    """By pip, or unpacked where there is no pip."""
    python = environment(folder, ["pip"])
    if python:
        return run([python, *INSTALL, archive], folder) + scripts(folder, python)
    with zipfile.ZipFile(archive) as it:
        it.extractall(folder / "site")
    return scripts(folder, sys.executable, PYTHONPATH=str(folder / "site"))


def npm(archive, folder):
    """By npm, or unpacked where there is none."""
    if not shutil.which("node"):
        return None
    if shutil.which("npm"):
        (folder / "package.json").write_text("{}\n", encoding="utf-8")
        said = run(["npm", "install", "--offline", "--silent", "--no-audit", "--no-fund", archive], folder, HOME=str(folder))
        if "ended" in said:
            return said
    else:
        (folder / "node_modules").mkdir()
        unpacked(archive, folder).rename(folder / "node_modules" / "puffgrit")
    (folder / "user.mjs").write_text(JAVASCRIPT, encoding="utf-8")
    return run(["node", "user.mjs", INFO], folder)


def crate(archive, folder):
    """With the C that it carries; and with the library of the archive for C."""
    if not shutil.which("cargo"):
        return None
    top = unpacked(archive, folder)
    (folder / "user" / "src").mkdir(parents=True)
    (folder / "user" / "src" / "main.rs").write_text(RUST, encoding="utf-8")
    (folder / "user" / "Cargo.toml").write_text(CARGO.format(crate=top), encoding="utf-8")
    prefix = Path(library_beside(archive, folder / "prefix")).parent.parent
    words, more = ["cargo", "run", "--quiet", "--offline"], {"CARGO_HOME": str(folder / "home"), "PUFFGRIT_PREFIX": str(prefix)}
    said = run([*words, "--", INFO], folder / "user", **more)
    return said if said != ALGORITHMS else run([*words, "--features", "whole", "--", INFO], folder / "user", **more)


# The numbers of the algorithms that the inspector page shows, and why it says that an input is refused.
SHOWN = r"""[...document.querySelectorAll(".line")].filter((it) => it.querySelector(".label")?.textContent === "alg")
  .map((it) => it.querySelector(".text").textContent.match(/\((-?\d+)\)/)[1] + "\n").join("")"""
EXPLAINED = r"""document.querySelector("#fault p").textContent + "\n" """


def page(archive, folder):
    """The inspector page, in Chromium."""
    if browser.program() is None:
        return None
    said = ""
    with browser.Page() as shown:
        for kind, text, expression in [("info", INFO.read_text(encoding="utf-8"), SHOWN), ("mc-request", "a101f5", EXPLAINED)]:
            address = f"{archive.as_uri()}#{urllib.parse.urlencode({'kind': kind, 'input': text})}"
            try:
                shown.load("about:blank")
                shown.load(address, "document.getElementById('lines').hasChildNodes()")
                said += shown.evaluate(expression)
            except browser.Failed as error:
                return str(error)
    return said


# How each archive is used, by what its name ends with or has in it.
USES = {"-x86_64-linux.tar.gz": native, "puffgrit-look-": looking, "puffgrit-c-": portable, ".whl": wheel, ".tgz": npm, ".crate": crate, ".html": page}
USES |= {"-aarch64-linux.tar.gz": aarch64, "libpuffgrit-dev_": debian, ".tar.gz": python_source}


def run_all(archives):
    """Yields each archive that was used, and whether it printed what it should; None if what it needs isn't installed."""
    for archive in archives:
        use = next((it for name, it in USES.items() if name in archive.name), None)
        if use:
            with tempfile.TemporaryDirectory() as name:
                said, wanted = use(archive, Path(name)), ALGORITHMS + (use != looking) * WHY
                if said not in (None, wanted):
                    print(f"tools/release: {archive.name}: {said}", file=sys.stderr)
                yield archive, None if said is None else said == wanted


def try_all(archives):
    """The status: 1 if an archive can't be used."""
    status = 0
    for archive, is_right in run_all(archives):
        print(f"{archive.name}: {'not tried' if is_right is None else 'used' if is_right else 'WRONG'}", flush=True)
        status |= is_right is False
    return status
