#!/usr/bin/env python3
"""Compares the examples in comments of public crates with tests.

An example is a block between two lines ``` in a `///` or `//!` comment of a file crates/NAME/src/*.rt. It has to stand word for word in
code that the gate runs: in mbj_job_tests or mbj_front_tests, in the program mbjobs, or in the tests of its own crate. Only the indentation of
the whole block may differ. Prints how many examples it compared, and each that stands nowhere; ends with status 1 if there is one. It
needs python3 alone.
"""
import pathlib
import re
import sys
import textwrap

TOP = pathlib.Path(__file__).resolve().parent.parent.parent
CRATES = TOP / "crates"
TEST_CRATES = ("mbj_job_tests", "mbj_front_tests", "mbjobs")
COMMENT = re.compile(r"\s*//[/!] ?(.*)")


def is_run(file):
    parts = file.relative_to(CRATES).parts
    return parts[0] in TEST_CRATES or parts[2] in ("tests", "tests.rt")


def files():
    return sorted(file for file in CRATES.glob("*/src/**/*.rt") if "out" not in file.parts)


def examples(file):
    """Each example of a file: the number of its first line, and its lines."""
    block = None
    for number, line in enumerate(file.read_text().splitlines(), 1):
        comment = COMMENT.fullmatch(line)
        if comment is None:
            block = None
        elif comment[1].startswith("```") and block is None:
            block = (number + 1, [])
        elif comment[1].startswith("```"):
            yield block
            block = None
        elif block is not None:
            block[1].append(comment[1].rstrip())


def undented(lines):
    return textwrap.dedent("\n".join(lines)).splitlines()


def stands_in(block, lines):
    """Whether these lines are somewhere among those of a test, with one indentation for all."""
    size = len(block)
    first = block[0].strip() if block else ""
    return any(
        lines[i].strip() == first and undented([line.rstrip() for line in lines[i : i + size]]) == undented(block)
        for i in range(len(lines) - size + 1)
    )


def main():
    tests = {file: file.read_text().splitlines() for file in files() if is_run(file)}
    compared, missing = 0, 0
    for file in files():
        if is_run(file):
            continue
        crate = file.relative_to(CRATES).parts[0]
        own = [lines for test, lines in tests.items() if test.relative_to(CRATES).parts[0] in (crate, *TEST_CRATES)]
        for number, block in examples(file):
            compared += 1
            if not block or not any(stands_in(block, lines) for lines in own):
                missing += 1
                print(f"{file.relative_to(TOP)}:{number}: this example stands in no test and not in the program")
    print(f"{compared} examples compared with {len(tests)} files of tests and of the program")
    return 1 if missing else 0


sys.exit(main())
