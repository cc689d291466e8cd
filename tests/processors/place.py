"""A place to run bin/firmware in: a repository with what it uses, and a kit with a stand-in for rt.

The stand-in passes a module on to the kit's clang, as the kit does. So a run takes a second and not the time of a
proof, and the module can be one that the kit does not make.
"""
import os
import pathlib
import shutil
import subprocess

ROOT = pathlib.Path(__file__).resolve().parents[2]
PATIENCE = 300  # seconds
TOOLS = ["clang", "ld.lld", "llvm-ar"]
BIN = pathlib.Path("toolchain/bin")
HOST = "x86_64-unknown-linux-gnu"

# Stand-ins for rt, run in the crate's folder. module.bc is in their own folder, and their kit is around that.
COMPILES = """
mkdir -p out && rm -f out/libfirmware.a
crate=$PWD here=$(dirname "$(readlink -f "$0")")
bin=${here%/bin}/toolchain/bin
cd "$(mktemp -d "$here/XXXXXX")" && cp "$here/module.bc" . || exit
compile() { "$bin/clang" -w --target=x86_64-unknown-linux-gnu -c -x ir -O3 "$1.bc" -o "$1.o"; }
"""
ARCHIVES = '"$bin/llvm-ar" rcs "$crate/out/libfirmware.a" module.o'
WHOLE = f"{COMPILES}compile module && {ARCHIVES}"
TWO_MODULES = f"{COMPILES}cp module.bc more.bc && compile more && compile module && {ARCHIVES}"
DAMAGED = f"{COMPILES}echo none >module.bc; compile module; exit 0"
NO_MODULE = "mkdir -p out && : >out/libfirmware.a"
FAILS = "echo 'rt: the library frame did not build, so nothing above it was checked'; exit 1"
SAYS_NOTHING = "exit 2"
SLOW = "mkdir -p out; sleep 60 & echo $! >out/sleeping; wait"


class Run:
    """One run of bin/firmware, to its end."""

    def __init__(self, words, **more):
        more = more if "input" in more else {"stdin": subprocess.DEVNULL, **more}
        more = {"stdout": subprocess.PIPE, "stderr": subprocess.PIPE, **more}
        done = subprocess.run(words, timeout=PATIENCE, text=True, **more)
        self.status, self.out, self.err = done.returncode, done.stdout, done.stderr

    def is_refusal(self, word):
        """Status 2, and one line, which has this word in it."""
        line = self.err.removesuffix("\n")
        right = self.err.startswith("firmware: ") and "\n" not in line and word in line
        return self.status == 2 and self.out == "" and right

    def __str__(self):
        return f"status {self.status}, {self.out!r}, {self.err!r}"


class Place:
    """A repository with bin/firmware and what it uses, and a kit with a stand-in for rt."""

    def __init__(self, folder, tools):
        self.folder, self.kit, self.root = folder, folder / "kit", folder / "repository"
        self.out = folder / "out"
        (self.kit / "bin").mkdir(parents=True)
        (self.kit / "bin/rtlib.py").touch()  # the kit's rt has it beside itself
        (self.kit / BIN).mkdir(parents=True)
        for tool in TOOLS:
            (self.kit / BIN / tool).symlink_to(tools / tool)
        (self.root / "crates/firmware").mkdir(parents=True)
        for name in ["bin", "cross", "include"]:
            shutil.copytree(ROOT / name, self.root / name)
        self.door = str(self.root / "bin/firmware")
        self.environment = {**os.environ, "PATH": f"{self.kit / 'bin'}:{os.environ['PATH']}"}

    def stand_in(self, text, module=None):
        rt = self.kit / "bin/rt"
        rt.write_text(f"#!/bin/sh\n{text}\n", encoding="utf-8")
        rt.chmod(0o755)
        if module is not None:
            (self.kit / "bin/module.bc").write_bytes(module)

    def run(self, *words, **more):
        return Run([self.door, *words], env=self.environment, **more)

    def left(self):
        """What stands in the folder beside kit and repository, and in OUT: nothing half-written may."""
        beside = {path.name for path in self.folder.iterdir()} - {"kit", "repository", "out"}
        return beside | ({path.name for path in self.out.iterdir()} if self.out.is_dir() else set())


def kit_of():
    """The folder of the kit's tools."""
    return pathlib.Path(shutil.which("rt")).resolve().parents[1] / BIN
