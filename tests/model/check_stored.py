"""The driver's stored script and text: the files, and the program on all of it in one run."""
import pathlib

import stored


def check_files(checks, files):
    for word, path, made in zip(("script", "text"), files, (stored.script(), stored.text())):
        same = pathlib.Path(path).read_bytes() == made
        checks.test(f"the stored {word}, byte for byte", same, f"tests/model/stored.py {word} makes it")


def check_program(checks, program):
    wrong = program.wrong_on(list(stored.steps()))
    checks.test("the program on the stored script, in one run", not wrong, wrong)
