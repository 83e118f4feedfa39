"""The programs of which a record is made: versions and digests. Not proved: a tool."""
import hashlib
import os
import platform
import re
import subprocess
import zipfile
from importlib import metadata

from .classes import digest
from .words import TOP

# What draws the page and checks certificates, beside `jop`.
PARTS = ("tools/wcet", "tools/wcet_page", "tools/recheck", "tools/rechecker", "docs/costs.md")
ADAPT = ("tools/adapt", "tools/adapter", "library/classes")
# The programs that adapt class files, by their names in a record.
ADAPTING = ("tools/adapt", "ASM", "javac", "java")


def used(jop):
    """each program's version, or its digest, or both"""
    own = {"version": (jop.call("--version").lines() or ["?"])[0], "sha256": file_digest(jop.program)}
    packages = {name: {"version": metadata.version(name)} for name in ("Jinja2", "Pygments")}
    return {"jop": own, "tools/wcet": {"sha256": digest_of(PARTS)}, "Python": {"version": platform.python_version()}, **packages}


def adapting():
    """the same of the programs that adapt class files"""
    jars = os.environ.get("ADAPT_ASM", "/usr/share/java/asm-all.jar").split(":")
    with zipfile.ZipFile(jars[0]) as jar:
        manifest = jar.read("META-INF/MANIFEST.MF").decode("utf-8", "replace")
    version = re.search(r"^(?:Bundle|Implementation)-Version: (\S+)", manifest, re.M)
    asm = {"version": version[1] if version else "?", "sha256": digest_of(jars) if jars[1:] else file_digest(jars[0])}
    return dict(zip(ADAPTING, [{"sha256": digest_of(ADAPT)}, asm, *({"version": version_of(each)} for each in ADAPTING[2:])]))


def version_of(program):
    """the first line in which a program tells its version"""
    ran = subprocess.run([program, "-version"], capture_output=True, text=True, check=False)
    return next(iter((ran.stdout + ran.stderr).splitlines()), "?")


def file_digest(path):
    with open(path, "rb") as file:
        return digest(file.read())


def digest_of(parts):
    """one digest of all files of some tools"""
    found = hashlib.sha256()
    for path in sorted(path for part in parts for path in files_of(os.path.join(TOP, part))):
        found.update(f"{file_digest(path)}  {os.path.relpath(path, TOP)}\n".encode())
    return found.hexdigest()


def files_of(path):
    """a file, or the files below a folder, without those that Python and tools/adapt make"""
    if os.path.isfile(path):
        return [path]
    return [os.path.join(at, name) for at, _, names in os.walk(path) for name in names if not {"__pycache__", "out"} & set(at.split("/"))]
