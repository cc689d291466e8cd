"""Builds the test program for a processor, with the kit's compiler or with another one."""
import pathlib
import shutil
import subprocess

from targets import BOARD

SHARED = ["call", "calls", "controls", "layout", "main", "memory", "painted", "print", "random", "sizes", "steps",
          "widths", "wire"]
MAINS = ("main", "steps")
STRICT = ["-std=c99", "-O2", "-Wall", "-Wextra", "-Wpedantic", "-Werror", "-ffreestanding"]
# gcc makes calls of memset out of loops otherwise, and there is no C library that has it.
GCC = ["-fno-tree-loop-distribute-patterns", "-fno-stack-protector"]
FULL = {"host": "x86_64-unknown-linux-gnu"}


class Unbuilt(Exception):
    """A compiler refused."""


def kit_tool(name):
    """A tool of the kit that has `rt`."""
    return str(pathlib.Path(shutil.which("rt") or "").resolve().parents[1] / "toolchain" / "bin" / name)


def run(words, folder):
    """What a tool prints; where it fails that is the fault."""
    try:
        done = subprocess.run([str(word) for word in words], cwd=folder, capture_output=True, text=True, check=False)
    except OSError as error:
        raise Unbuilt(str(error)) from error
    if done.returncode != 0:
        raise Unbuilt(f"{words[0]}: {(done.stdout + done.stderr)[-1500:]}")
    return done.stdout


class Build:
    """The objects of one processor by one compiler, in a folder of their own."""

    def __init__(self, target, other, folder, include):
        self.target, self.other, self.folder, self.include = target, other, folder, include
        folder.mkdir(parents=True)

    def compiler(self):
        if self.other:
            return [*self.target.other, *GCC]
        # the kit's clang has no headers: those of the host's gcc have nothing of the host in them
        headers = run(["gcc", "-print-file-name=include"], self.folder).strip()
        triple = FULL.get(self.target.name, self.target.name)
        return [kit_tool("clang"), f"--target={triple}", "-fno-pic", "-nostdlibinc", "-isystem", headers]

    def compile(self, sources, *words):
        """Each source becomes an object with its name."""
        run([*self.compiler(), *STRICT, *words, "-I", self.include, "-I", BOARD, "-c", *sources], self.folder)
        return [self.folder / f"{pathlib.Path(source).stem}.o" for source in sources]

    def compile_all(self, seed, count):
        sources = [*(BOARD / f"{name}.c" for name in SHARED), *self.target.sources]
        self.objects = self.compile(sources, f"-DSEED={seed}u", f"-DCOUNT={count}u")

    def link(self, main, image, *writer):
        """The program with one of the mains, and the archive or object of a writer."""
        objects = [one for one in self.objects if one.stem == main or one.stem not in MAINS]
        if self.other:
            words = [*self.compiler(), "-nostdlib", *self.target.script, "-o", image, *objects, *writer, "-lgcc"]
        else:
            words = [kit_tool("ld.lld"), *self.target.script, "-o", image, *objects, *writer]
        run(words, self.folder)
        return self.folder / image
