#!/usr/bin/env python3
"""Builds crates/saktroum/out/libsaktroum.a over the libraries that `rt ci` has just built in this checkout.

    python3 .ci/archive.py

It does what `rt lib` does in crates/saktroum, with the words that `rt` gives the prover, but takes the libraries below as they
stand in their out/: `rt lib` would prove each of them again, since `rt ci` keeps only their statements there. The crate itself
is proved once more. So it is right only where `rt ci` passed in a checkout that had no libraries before; .ci/run sees to that.
The exit status is not 0, and nothing is built, where a library is missing.
"""

import importlib.machinery
import importlib.util
import os
import pathlib
import shutil
import sys

ROOT = pathlib.Path(__file__).resolve().parent.parent
CRATE = ROOT / "crates" / "saktroum"


def toolchain():
    """What stands beside the command `rt`: how it reads crates.txt, and calls the prover."""
    path = pathlib.Path(shutil.which("rt") or sys.exit("there is no command rt")).resolve().with_name("rtlib.py")
    loader = importlib.machinery.SourceFileLoader("rtlib", str(path))
    module = importlib.util.module_from_spec(importlib.util.spec_from_loader("rtlib", loader))
    sys.modules["rtlib"] = module
    loader.exec_module(module)
    return module


def main():
    crate = toolchain().Crate(str(CRATE), str(ROOT), {})
    missing = [below.name for below in crate.below() if not os.path.isdir(below.rlib)]
    if missing:
        sys.exit(f"these libraries are not built here: {' '.join(missing)}")
    (CRATE / "out").mkdir(exist_ok=True)
    sys.exit(crate.build_static([]))


if __name__ == "__main__":
    main()
