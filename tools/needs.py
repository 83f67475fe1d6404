"""What a tool needs of the machine. A tool that imports this first says in one line what is missing, and ends with status 1."""

import os
import shlex
import shutil
import sys

TOOL = "tools/" + os.path.basename(sys.argv[0])

if sys.version_info < (3, 11):
    sys.exit("%s: Python 3.11 is needed, and python3 is %d.%d" % (TOOL, *sys.version_info[:2]))

# The C compiler, in words.
CC = shlex.split(os.environ.get("CC", "cc"))


def words(document, *known):
    """Returns the arguments. Prints what the tool does and ends the run if --help asks for it, or an argument isn't known."""
    given = sys.argv[1:]
    if "--help" in given or "-h" in given:
        print(document)
        sys.exit(0)
    for it in given:
        if it not in known and (it.startswith("-") or "FILE" not in known):
            sys.exit(f"{TOOL}: {it} is no argument of it; --help lists them")
    return given


def need(*names):
    """Ends the run if one of these isn't on the path: `rt`, `cc` for the C compiler, or another command."""
    for name in names:
        command = CC[0] if name == "cc" else name
        if not shutil.which(command):
            comes = {"rt": "; it comes with the Rattle toolchain", "cc": "; $CC names another C compiler"}.get(name, "")
            sys.exit(f"{TOOL}: {command} isn't on the path{comes}")
