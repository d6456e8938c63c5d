#!/usr/bin/env python3
"""What a history of a million steps takes as its records, and whether its entries are found alike at both ends. Runs
scripts/packed_bench.txt in a copy of op_record, without proofs. Not part of the gate. Use: scripts/packed.py"""
import os
import shutil
import subprocess
import sys
import tempfile

HERE = os.path.dirname(os.path.abspath(__file__))
ROOT = os.path.join(HERE, "..")


def main():
    with tempfile.TemporaryDirectory() as folder:
        for name in ("crates.txt", "HANDLES"):
            shutil.copy(os.path.join(ROOT, name), folder)
        shutil.copytree(os.path.join(ROOT, "crates"), os.path.join(folder, "crates"), ignore=shutil.ignore_patterns("out"))
        crate = os.path.join(folder, "crates", "op_record")
        shutil.copy(os.path.join(HERE, "packed_bench.txt"), os.path.join(crate, "src", "packed_bench.rt"))
        for file, old, new in (
            ("lib.rt", "mod packed;\n", "mod packed;\n#[cfg(test)]\nmod packed_bench;\n"),
            ("packed.rt", "    bytes: Vec<u8>,\n    //", "    pub(crate) bytes: Vec<u8>,\n    //"),
            ("packed.rt", "    points: Vec<Point>,\n    count", "    pub(crate) points: Vec<Point>,\n    count"),
        ):
            path = os.path.join(crate, "src", file)
            with open(path, encoding="utf-8") as source:
                text = source.read()
            assert text.count(old) == 1, (file, old)
            with open(path, "w", encoding="utf-8") as sink:
                sink.write(text.replace(old, new))
        return subprocess.run(["rt", "try", "--test"], cwd=crate, check=False).returncode


sys.exit(main())
