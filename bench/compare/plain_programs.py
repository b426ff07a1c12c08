#!/usr/bin/env python3
"""Builds the plain programs with which the product is compared, all into `out/release`, for the processors that the product is
compiled for. Its words, or those of `build`, are the projects: `beside` is this folder's, and `load_driver` the driver of many
clients. `plain_nodes` needs Debian's packages librust-crossbeam-channel-dev and librust-crossbeam-queue-dev. It needs cargo."""
import os
import pathlib
import subprocess
import sys

COMPARE = pathlib.Path(__file__).resolve().parent
OUT = COMPARE / "out"
PROGRAMS = OUT / "release"
PROJECTS = {"beside": COMPARE, "plain_nodes": COMPARE / "plain_nodes", "load_driver": COMPARE / "load_driver"}
# Where Debian puts the sources of its Rust packages.
DEBIAN = ["source.crates-io.replace-with='debian'", "source.debian.directory='/usr/share/cargo/registry'"]


def build(*projects):
    """Builds these projects."""
    flags = os.environ | {"RUSTFLAGS": "-C target-cpu=x86-64-v2"}
    for name in projects:
        sources = [word for setting in DEBIAN if name == "plain_nodes" for word in ("--config", setting)]
        words = ["cargo", "build", "--quiet", "--release", "--offline", *sources, "--target-dir", OUT]
        subprocess.run(words, cwd=PROJECTS[name], env=flags, check=True)


def refuse(usage):
    """Ends a script whose words are wrong."""
    print(f"usage: bench/compare/{usage}", file=sys.stderr)
    sys.exit(2)


if __name__ == "__main__":
    build(*sys.argv[1:] or PROJECTS)
