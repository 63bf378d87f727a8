#!/usr/bin/env python3
"""Tests of the check of the pages: each fault is found, and nothing else."""
import glob
import os
import tempfile
import unittest

import check_docs
from check_docs import TOP, Short

CONSOLE = """# A page

## One

```console
$ cat <<END
> a b
> END
a b
$ echo c; ./faultmem try run
c
words run
```

```console long
$ echo long
long
```

## Two

```console
$ ls
```
"""


class Pages(unittest.TestCase):
    """What is said of a page."""

    def test_commands(self) -> None:
        """A command may go on; those that take long are left out."""
        sections = CONSOLE.split("## ")
        self.assertEqual(
            check_docs.commands_of(sections[1], False),
            [("cat <<END\na b\nEND", ["a b"]), ("echo c; ./faultmem try run", ["c", "words run"])],
        )
        self.assertEqual(check_docs.commands_of(sections[1], True)[2:], [("echo long", ["long"])])
        self.assertEqual(check_docs.commands_of(sections[2], True), [("ls", [])])

    def test_printed(self) -> None:
        """The commands are run in one shell, with the wrapper in place of ./faultmem, which takes `try` or not."""
        commands = check_docs.commands_of(CONSOLE.split("## ")[1], True)
        with tempfile.TemporaryDirectory() as folder:
            wrapper = f"{folder}/wrapper"
            with open(wrapper, "w", encoding="utf-8") as it:
                it.write('#!/bin/sh\necho "words $*"\n')
            os.chmod(wrapper, 0o755)
            printed = check_docs.printed_by(commands, wrapper, 13400)
        self.assertEqual([it.strip() for it in printed], ["a b", "c\nwords run", "long"])

    def test_blocks(self) -> None:
        """A command is in no other block."""
        self.assertEqual(list(check_docs.wrong_blocks(CONSOLE)), [])
        self.assertEqual(list(check_docs.wrong_blocks("```sh\nrt ci\n```\n")), [])
        for text in ("```\n./faultmem run\n```\n", "a\n\n    tools/check_docs.py --long\n\nb\n", "```text\n$ ls\n```\n"):
            self.assertEqual(len(list(check_docs.wrong_blocks(text))), 1, text)
        self.assertEqual(list(check_docs.wrong_blocks("a\n\n    event 0 dtc 123456\n    cycle 0\n")), [])

    def test_quotations(self) -> None:
        """A quotation is in its file, line by line."""
        with open(f"{TOP}/crates.txt", encoding="utf-8") as it:
            lines = it.read().split("\n")[:2]
        good = "\n".join(lines)
        self.assertEqual(list(check_docs.wrong_quotations(f"```text crates/../crates.txt\n{good}\n```\n")), [])
        self.assertEqual(len(list(check_docs.wrong_quotations(f"```text crates/../crates.txt\n{good}x\n```\n"))), 1)
        self.assertEqual(len(list(check_docs.wrong_quotations("```text crates/none.rt\na\n```\n"))), 1)

    def test_lengths(self) -> None:
        """README has at most 900 words, and another page as many as it wants."""
        self.assertEqual(list(check_docs.wrong_length(f"{TOP}/README.md", "a " * 900)), [])
        self.assertEqual(len(list(check_docs.wrong_length(f"{TOP}/README.md", "a " * 901))), 1)
        self.assertEqual(list(check_docs.wrong_length(f"{TOP}/docs/USE.md", "a " * 90000)), [])

    def test_headings(self) -> None:
        """A link to a heading leads to one."""
        with tempfile.TemporaryDirectory() as folder:
            page = f"{folder}/page.md"
            text = "# A page, with `code` and A-B: c\n\n[a](#a-page-with-code-and-a-b-c) [b](page.md#none)\n"
            with open(page, "w", encoding="utf-8") as it:
                it.write(text)
            self.assertEqual(list(check_docs.wrong_headings(page, text)), ["page.md has no heading #none"])


class Shorts(unittest.TestCase):
    """The short forms of the commands of blocks `sh`."""

    def test_each_is_shown(self) -> None:
        """Each command of such a block has one, and each is of a command of a page."""
        pages = [f"{TOP}/README.md", *glob.glob(f"{TOP}/*/*.md")]
        commands = [it for page in pages for it in check_docs.shorts_of(check_docs.text_of(page))]
        self.assertEqual([command for command, short in commands if short is None], [])
        self.assertEqual({short for _, short in commands}, set(check_docs.SHORTS))

    def test_unknown(self) -> None:
        """A command without one is a fault."""
        self.assertEqual(len(list(check_docs.wrong_shorts("```sh\nrt cii\n```\n"))), 1)

    def test_gate(self) -> None:
        """The command of the gate is a line of .ci/run."""
        self.assertEqual(list(check_docs.wrong_shorts("```sh\nrt ci\n```\n")), [])
        with tempfile.NamedTemporaryFile("w", encoding="utf-8") as it:
            it.write("rt ci --quick\n")
            it.flush()
            self.assertEqual(len(list(check_docs.wrong_shorts("```sh\nrt ci\n```\n", run=it.name))), 1)

    def test_runs(self) -> None:
        """Each is run, with the programs in the places of their names, and has to end well and to print what is due."""
        good = Short("a", "echo {live}; echo b", due="/faultmem_live/out/try$", long="false")
        for short, with_long, faults in ((good, False, 0), (good, True, 1), (Short("a", "echo b", due="^c$"), False, 1), (Short("a", "exit 1"), False, 1)):
            self.assertEqual(len(list(check_docs.wrong_runs([(short, "try")], with_long))), faults, short)

    def test_absent(self) -> None:
        """What is not there is named."""
        self.assertEqual(check_docs.absent_for(Short("a", "b", needs=("sh", "none-such"), programs=("none",))), ["none-such", "the program none"])
        self.assertEqual(list(check_docs.unrun_on("page.md", "```console long\n$ rt verdict\n```\n", False)), ["'rt verdict': without --long"])
        self.assertEqual(list(check_docs.unrun_on("page.md", "```sh\nrt ci\n```\n", True)), [])


if __name__ == "__main__":
    unittest.main()
