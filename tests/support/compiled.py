"""Programs in C of this repository, and sources that have to be C and C++ at once."""

import subprocess
import tempfile

from support import ROOT

HEADERS, LIBRARY = f"-I{ROOT / 'include'}", ROOT / "target" / "lib" / "libniqastul.a"
WARNINGS = ["-Wall", "-Wextra", "-Werror"]

# the languages that the header is written in, all at once
LANGUAGES = ["gcc -std=c99 -x c", "gcc -std=c11 -x c", "g++ -std=c++98 -x c++", "g++ -std=c++17 -x c++"]


def compiled(source, name):
    """One of the programs, linked with the static library."""
    program = ROOT / "target" / name
    command = ["cc", "-std=c11", "-O1", *WARNINGS, HEADERS, ROOT / source, LIBRARY]
    subprocess.run([*command, "-o", program], check=True)
    return program


def printed(language, source):
    """What the program of a source prints, compiled in a language, with no extension of it, and linked likewise."""
    with tempfile.TemporaryDirectory() as folder:
        program = folder + "/program"
        command = [*language.split(), "-pedantic", *WARNINGS, HEADERS, "-", "-x", "none", LIBRARY]
        subprocess.run([*command, "-o", program], input=source, text=True, check=True)
        return subprocess.run([program], capture_output=True, text=True, check=True).stdout
