#!/usr/bin/env python3
"""bench/libraries.py [--jop FILE] [--jars FOLDER] [NAME..]: adapts pieces of libraries of Debian by tools/adapt, runs them, and compares what they put out with what a Java
virtual machine puts out; then bounds one method of each, checks the certificate, and tells what its dearest activation takes.

Nothing of the libraries stands here: bench/libraries has the programs that call them. The loops get the least bounds that the run keeps, so
a number holds for activations that keep those. It isn't in the gate. Packages:

    apt-get install default-jdk-headless libasm-java libcommons-codec-java libbcprov-java libjzlib-java libxz-java libcommons-compress-java \\
        libguava-java libzxing-core-java liblz4-java libfastutil-java libnoggit-java
"""
import argparse
import bz2
import importlib.machinery
import importlib.util
import lzma
import os
import shutil
import subprocess
import sys
import tempfile
import zlib

HERE = os.path.dirname(os.path.realpath(__file__))
TOP = os.path.dirname(HERE)
sys.dont_write_bytecode = True
sys.path.pop(0)  # the modules of tests/ have names of other scripts here


def script(path):
    """the names of a script without an ending"""
    loader = importlib.machinery.SourceFileLoader(os.path.basename(path), path)
    module = importlib.util.module_from_spec(importlib.util.spec_from_loader(loader.name, loader))
    loader.exec_module(module)
    return module


activations = script(f"{TOP}/tests/activations")
sys.path.append(f"{TOP}/tests/adapt")
import ordinary  # noqa: E402
from caller import Caller  # noqa: E402
from costs import Timing  # noqa: E402
import traces  # noqa: E402

TEXT = bytes(97 + (k * k >> 3) % 23 if k % 7 else 65 + k % 3 for k in range(700))
LZMA1 = [{"id": lzma.FILTER_LZMA1, "dict_size": 4096, "lc": 3, "lp": 0, "pb": 2}]
# 500 bytes that repeat with changes, packed by lz4 on a virtual machine; what it packs goes by the machine's order of bytes.
LZ4 = bytes.fromhex("""
    f508616263646566676869474e6c6d6e6f707172737475767717002f6a6b1700155f476768694e2e00160073000f5c00091f448a00041f49a1001219415c001748cf001248cf
    0057457374754d17000fb80007114714017543757643616250b800124d2b01394375454500124c1700014201134b5901038a00134e170031626342700103170002cf003a4b61
    492e00021700002e000573004a6d6e6f4217001a42b800114eb5011c455c0011771700037001506d6e6f7071
""")
CODEC, COMPRESS = "commons-codec", "commons-compress"
# The program, the jar file, the method that is bounded (none of a program whose trace is long), and what it reads.
PIECES = [
    ("Murmur", CODEC, "org/apache/commons/codec/digest/MurmurHash3.hash128x64Internal([BIIJ)[J", b""),
    ("XxHash", CODEC, "org/apache/commons/codec/digest/XXHash32.update([BII)V", b""),
    ("Crc32c", CODEC, "org/apache/commons/codec/digest/PureJavaCrc32.update([BII)V", b""),
    ("Sounds", CODEC, "org/apache/commons/codec/language/Soundex.soundex(Ljop/Text;)Ljop/Text;", b""),
    ("Curve", "bcprov", "org/bouncycastle/math/ec/rfc7748/X25519Field.mul([I[I[I)V", b""),
    ("Poly", "bcprov", "org/bouncycastle/crypto/macs/Poly1305.processBlock()V", b""),
    ("Deflating", "jzlib", None, b""),
    ("Inflating", "jzlib", "com/jcraft/jzlib/Adler32.update([BII)V", zlib.compress(TEXT, 9)),
    ("Crc64", "xz", "org/tukaani/xz/check/CRC64.update([BII)V", b""),
    ("Lzma", "xz", "org/tukaani/xz/lz/LZDecoder.repeat(II)V", lzma.compress(TEXT, format=lzma.FORMAT_ALONE, filters=LZMA1)),
    ("Snappy", COMPRESS, "org/apache/commons/compress/compressors/lz77support/AbstractLZ77CompressorInputStream.tryToCopy(I)V", b""),
    ("Bzip2", COMPRESS, "org/apache/commons/compress/compressors/bzip2/BZip2CompressorInputStream.createHuffmanDecodingTables(II)V",
     bz2.compress(TEXT, 1)),
    ("Mathematics", "guava", "com/google/common/math/IntMath.gcd(II)I", b""),
    ("Sha256", "bcprov", "org/bouncycastle/crypto/digests/SHA256Digest.processBlock()V", b""),
    ("Sha512", "bcprov", "org/bouncycastle/crypto/digests/LongDigest.processBlock()V", b""),
    ("Sha3", "bcprov", "org/bouncycastle/crypto/digests/KeccakDigest.KeccakPermutation()V", b""),
    ("Blake", "bcprov", "org/bouncycastle/crypto/digests/Blake2bDigest.compress([BI)V", b""),
    ("Aes", "bcprov", "org/bouncycastle/crypto/engines/AESEngine.encryptBlock([BI[BI[[I)V", b""),
    ("ChaCha", "bcprov", "org/bouncycastle/crypto/engines/ChaChaEngine.chachaCore(I[I[I)V", b""),
    ("net/jpountz/lz4/Lz4", "lz4-java", "net/jpountz/lz4/LZ4JavaSafeFastDecompressor.decompress([BI[BII)I", LZ4),
    ("IntMap", "fastutil", "it/unimi/dsi/fastutil/ints/Int2IntAVLTreeMap.get(I)I", b""),
    ("Bases", CODEC, "org/apache/commons/codec/binary/Base64.encode([BIILorg/apache/commons/codec/binary/BaseNCodec$Context;)V", b""),
    ("Hexes", CODEC, "org/apache/commons/codec/binary/Hex.decodeHex([C[BI)I", b""),
    ("Json", "noggit", "org/noggit/JSONParser.nextEvent()I", b""),
    ("Numbers", "guava", "com/google/common/primitives/UnsignedLongs.divide(JJ)J", b""),
    ("ReedSolomon", "core", "com/google/zxing/common/reedsolomon/GenericGF.multiply(II)I", b""),
]


def words():
    """what the command line asks for"""
    parser = argparse.ArgumentParser(description=__doc__, formatter_class=argparse.RawDescriptionHelpFormatter)
    parser.add_argument("--jop", default=f"{TOP}/crates/jop/out/jop", help="the program that is run")
    parser.add_argument("--jars", default="/usr/share/java", help="where the libraries' jar files are")
    parser.add_argument("names", nargs="*", help="the pieces")
    return parser.parse_args()


def done(command, **more):
    """what a process puts out, which has to end well"""
    result = subprocess.run(command, capture_output=True, check=False, **more)
    if result.returncode:
        raise RuntimeError((result.stdout + result.stderr).decode().strip()[-2000:])
    return result.stdout


def jar_file(asked, jar):
    """the file of a library"""
    return os.path.join(asked.jars, f"{jar}.jar")


def compiled(room, pieces, asked):
    """compiles the programs, and gives their folder"""
    host, classes = f"{room}/host", f"{room}/classes"
    options = ["--release", "8", "-g:source,lines", "-nowarn", "-Xlint:-options"]
    done(["javac", *options, "-d", host, f"{TOP}/tests/adapt/host/jop/Io.java"])
    path = ":".join([host] + [jar_file(asked, jar) for _, jar, _, _ in pieces])
    done(["javac", *options, "-cp", path, "-d", classes, *[f"{HERE}/libraries/{os.path.basename(name)}.java" for name in ["Data"] + [each[0] for each in pieces]]])
    return classes


class Tried(activations.Tried):
    """a piece that was adapted"""

    def run(self, caller, timing):
        """the bytes that a run puts out"""
        answer = caller.call(["run", "--memory", "4000000", *activations.options(timing), "image"], self.given)
        if answer.status:
            raise RuntimeError(answer.line())
        return answer.out

    def trace(self, caller, timing):
        answer = caller.call(["trace", "--memory", "4000000", *activations.options(timing), "image"], self.given)
        return traces.activations(answer.out.decode())


def adapted(room, name, answer):
    """the class files of a piece, in their order, and the line that tells how many there are"""
    folder = f"{room}/{name}"
    is_adapted, told = answer
    if not is_adapted:
        raise RuntimeError(told.strip())
    with open(f"{folder}/files", encoding="utf-8") as file:
        names = file.read().split()
    files = []
    for each in names:
        with open(f"{folder}/{each}", "rb") as file:
            files.append(file.read())
    return files, told.strip().split("\n")[-1]


def bounded(tried, caller, timing, method):
    """the number of a method, what its dearest activation takes, and how often it is run"""
    run = tried.trace(caller, timing)
    caller.put("bounds", activations.bounds_text(tried.bounds([run])).encode())
    answer = caller.call(["bound", "--method", method, *activations.options(timing), "image", "bounds"])
    if answer.status:
        return answer.line()
    caller.put("certificate", answer.out)
    held = caller.call(["check", *activations.options(timing), "image", "bounds", "certificate"]).line()
    taken = [each.cycles() for each in run if each.method == method and each.ended is not None]
    number = int(answer.out.decode().split()[-1])
    return f"{held.replace(method, 'bound')}, dearest of {len(taken)} takes {max(taken)}, {100 * max(taken) / number:.1f} %"


def tell(piece, answer, room, classes, jop, asked):
    """the line of a piece"""
    name, jar, method, given = piece
    files, told = adapted(room, name, answer)
    caller = Caller(jop, tempfile.mkdtemp(dir=room))
    tried = Tried(name, name, files, given)
    if not tried.link(caller):
        raise RuntimeError(caller.link(name, files).line())
    path = f"{classes}:{room}/host:{jar_file(asked, jar)}"
    wanted = done(["java", "-Dfile.encoding=ISO-8859-1", "-Dstdout.encoding=ISO-8859-1", "-cp", path, name], input=given)
    for blocks in (16, 64):
        timing = Timing(1, 2, blocks, 64)
        try:
            out = tried.run(caller, timing)
            break
        except RuntimeError as fault:
            if not str(fault).startswith("method too long"):
                raise
    if out != wanted:
        raise RuntimeError("puts out something else")
    line = f"{os.path.basename(name)} of {jar}: {told}; {len(out)} bytes as wanted; {blocks} blocks"
    return f"{line}; {method}: {bounded(tried, caller, timing, method)}" if method else line


def main():
    asked = words()
    pieces = [piece for piece in PIECES if not asked.names or os.path.basename(piece[0]) in asked.names]
    failed = 0
    with tempfile.TemporaryDirectory(prefix="jop-libraries-") as room:
        jop = os.environ["ADAPT_JOP"] = shutil.copy(asked.jop, f"{room}/jop")
        classes = compiled(room, pieces, asked)
        calls = [[name, "-o", f"{room}/{name}", classes, jar_file(asked, jar)] for name, jar, _, _ in pieces]
        answers = ordinary.batch(calls, room, [f"{TOP}/tools/adapt"])
        for piece, answer in zip(pieces, answers):
            try:
                print(tell(piece, answer, room, classes, jop, asked), flush=True)
            except RuntimeError as fault:
                failed += 1
                print(f"FAILED {piece[0]}: {fault}", flush=True)
    print(f"{len(pieces) - failed} pieces run, {failed} don't")
    return 1 if failed else 0


if __name__ == "__main__":
    sys.exit(main())
