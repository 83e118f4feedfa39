#!/usr/bin/env python3
"""bench/adapting.py [--fetch] FOLDER: of how many methods of a hundred packages of Debian each instruction adapts.

FOLDER holds the packages' files (`NAME_VERSION.deb`), which --fetch has apt-get download there. For each package a line tells its methods
with code and those that `tools/adapt` takes: no instruction of such a method is refused, and what it names is in its package, in the
library or in the classes that the linker brings. That the methods which it calls adapt as well isn't asked. At last stand the sums, and
what alone refuses methods most often. Nothing of the packages stands here, and it isn't in the gate.
"""
import argparse
import collections
import glob
import os
import subprocess
import sys
import tempfile

TOP = os.path.dirname(os.path.dirname(os.path.realpath(__file__)))
PACKAGES = """
    bsh junit4 libantlr-java libantlr3-runtime-java libantlr4-runtime-java libargs4j-java libasm-java
    libautomaton-java libbcpkix-java libbcprov-java libbsf-java libcarrotsearch-hppc-java libcglib-java
    libcolt-free-java libcommons-beanutils-java libcommons-cli-java libcommons-codec-java libcommons-collections3-java
    libcommons-collections4-java libcommons-compress-java libcommons-configuration2-java libcommons-csv-java
    libcommons-digester-java libcommons-exec-java libcommons-fileupload-java libcommons-io-java libcommons-jexl2-java
    libcommons-jxpath-java libcommons-lang-java libcommons-lang3-java libcommons-math-java libcommons-math3-java
    libcommons-net-java libcommons-pool2-java libcommons-text-java libcommons-validator-java libdnsjava-java
    libdom4j-java libfreemarker-java libgoogle-gson-java libguava-java libhamcrest-java libhtmlparser-java
    libhttpcore-java libitext-java libjackson2-core-java libjackson2-databind-java libjama-java libjavassist-java
    libjaxen-java libjbzip2-java libjcommander-java libjcommon-java libjdom1-java libjdom2-java libjexcelapi-java
    libjgoodies-common-java libjgrapht-java libjlayer-java libjlha-java libjmdns-java libjoda-time-java libjorbis-java
    libjregex-java libjsch-java libjson-simple-java libjsoup-java libjtidy-java libjts-java libjutils-java
    libjzlib-java libkxml2-java liblog4j1.2-java liblogback-java liblz4-java libmiglayout-java libmtj-java
    libokio-java libopencsv-java liboro-java libpicocli-java libplexus-utils2-java libregexp-java librhino-java
    libsnappy-java libstringtemplate-java libstringtemplate4-java libsuper-csv-java libtagsoup-java libtrove3-java
    libunivocity-parsers-java libvecmath-java libwoodstox-java libxerces2-java libxml-commons-resolver1.1-java
    libxom-java libxpp3-java libxstream-java libxz-java libzxing-core-java
""".split()


def words():
    """what the command line asks for"""
    parser = argparse.ArgumentParser(description=__doc__, formatter_class=argparse.RawDescriptionHelpFormatter)
    parser.add_argument("--fetch", action="store_true", help="have apt-get download what isn't there")
    parser.add_argument("folder")
    return parser.parse_args()


def fetch(folder):
    """downloads the packages that aren't there"""
    os.makedirs(folder, exist_ok=True)
    missing = [name for name in PACKAGES if not glob.glob(f"{folder}/{name}_*.deb")]
    subprocess.run(["apt-get", "download", "-q", *missing], cwd=folder, check=False)


def jars(package, room):
    """the jar files of a package, each once"""
    if not os.path.isdir(room):
        os.makedirs(os.path.dirname(room), exist_ok=True)
        subprocess.run(["dpkg-deb", "-x", package, room], check=True)
    found = glob.glob(f"{room}/usr/share/**/*.jar", recursive=True)
    return sorted({os.path.realpath(jar) for jar in found if os.path.isfile(jar)})


def told(lines):
    """the methods of a package, those that adapt, and what alone refuses how many"""
    [place] = [number for number, line in enumerate(lines) if line.startswith("all ")]
    methods, adapted = (int(part.split("=")[1]) for part in lines[place].split()[1:])
    return methods, adapted, {form: int(count) for count, _, form in (line.partition(" ") for line in lines[place + 1:])}


def counted(paths, room):
    """for each package the lines that tell of its methods; all are counted in one process"""
    calls = f"{room}/calls"
    with open(calls, "w", encoding="utf-8") as file:
        file.write("".join("\t".join(["--count", *path]) + "\n" for path in paths))
    lines = []
    with subprocess.Popen([f"{TOP}/tools/adapt", "--batch", calls], stdout=subprocess.PIPE, text=True) as process:
        for line in process.stdout:
            if not line.startswith("status "):
                lines.append(line.rstrip("\n"))
                continue
            yield lines
            lines = []


def main():
    asked = words()
    if asked.fetch:
        fetch(asked.folder)
    files = {name: glob.glob(f"{asked.folder}/{name}_*.deb") for name in PACKAGES}
    print(*[f"{name} isn't there" for name in PACKAGES if not files[name]], sep="\n")
    methods, adapted, alone = 0, 0, collections.Counter()
    with tempfile.TemporaryDirectory(prefix="jop-adapting-") as room:
        paths = {name: jars(files[name][0], f"{asked.folder}/unpacked/{name}") for name in PACKAGES if files[name]}
        paths = {name: path for name, path in paths.items() if path}
        for name, lines in zip(paths, counted(paths.values(), room)):
            more, of, forms = told(lines)
            print(f"{name} methods={more} adapted={of}", flush=True)
            methods, adapted = methods + more, adapted + of
            alone.update(forms)
    print(f"packages={len(paths)} methods={methods} adapted={adapted} share={100 * adapted / max(1, methods):.1f} %")
    for form, count in alone.most_common(25):
        print(f"{count} {form}")


if __name__ == "__main__":
    main()
