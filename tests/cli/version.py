"""trogonreed --version: the version of the file VERSION, and the kit that rt names."""
import os
import re
import shutil

from door import run
from firstuse import Checkout

KIT = "a-kit logic 0123456789abcdef"


def all_uses(test, root, room):
    fresh = Checkout(root, room, "version")
    number = (root / "VERSION").read_text()
    test("VERSION is one line, 0.N.0", re.fullmatch(r"0\.[1-9][0-9]*\.0\n", number) is not None, repr(number))
    number = number.strip()
    heading = re.search(r"^## .*", (root / "CHANGELOG.md").read_text(), re.MULTILINE).group()
    test("CHANGELOG.md begins with this version", number in heading.replace(":", " ").split(), heading)
    with_rt(test, fresh, number)
    without_rt(test, fresh, number)
    broken_rt(test, fresh, number)
    places(test, fresh, number)
    real_kit(test, root, number)
    (fresh.place / "VERSION").unlink()
    prints(test, "there is no VERSION", fresh.use("--version"), f"trogonreed unknown, kit {KIT}")


def prints(test, name, found, line):
    test(name, found.is_quiet(f"{line}\n".encode()), str(found))


def give_rt(fresh, action):
    """rt with nothing but its command version."""
    (fresh.tools / "rt").write_text(f'#!/bin/sh\necho "$*" >>"$CALLS"\n{action}\n')
    (fresh.tools / "rt").chmod(0o755)


def with_rt(test, fresh, number):
    give_rt(fresh, f"echo '{KIT}'")
    for word in ("--version", "version"):
        prints(test, word, fresh.use(word), f"trogonreed {number}, kit {KIT}")
    calls = fresh.calls.read_text().splitlines()
    test("--version has rt do nothing else", calls == ["version"] * 2, str(calls))
    test("--version builds nothing", not (fresh.place / "target").exists())
    for words in (["--version", "list"], ["version", "list"], ["--version", ""]):
        found = fresh.use(*words)
        test(f"a word after {words}", found.is_refusal(words[0], "takes no words"), str(found))
    found = fresh.use("list", "--version")
    test("--version is no option of list", found.is_refusal("--version"), str(found))


def without_rt(test, fresh, number):
    (fresh.tools / "rt").unlink()
    line = f"trogonreed {number}, kit unknown (rt is not on the PATH)"
    prints(test, "--version without rt", fresh.use("--version"), line)


def broken_rt(test, fresh, number):
    failed = f"trogonreed {number}, kit unknown (rt version failed)"
    for what, action, line in [
        ("fails", "echo half; exit 1", failed),
        ("says nothing", ":", failed),
        ("says nothing on standard output", "echo other >&2", failed),
        ("says two lines", "echo one; echo two", f"trogonreed {number}, kit one?two"),
    ]:
        give_rt(fresh, action)
        prints(test, f"--version, rt {what}", fresh.use("--version"), line)


def places(test, fresh, number):
    """The version is that of the repository, wherever the command is called from."""
    give_rt(fresh, f"echo '{KIT}'")
    line = f"trogonreed {number}, kit {KIT}"
    links = fresh.tools / "links"
    links.mkdir()
    (links / "VERSION").write_text("another\n")
    (links / "one").symlink_to(fresh.place / "bin/trogonreed")
    (links / "two").symlink_to("one")
    for what, word in [("a link", links / "one"), ("a link to a link", links / "two"), ("a relative link", "./two")]:
        prints(test, f"--version by {what}", run([word, "--version"], env=fresh.env, cwd=links), line)


def real_kit(test, root, number):
    if shutil.which("rt"):
        kit = run(["rt", "version"]).out.decode().strip()
        found = run([root / "bin/trogonreed", "--version"], env=os.environ)
        prints(test, "--version names the kit of rt version", found, f"trogonreed {number}, kit {kit}")
