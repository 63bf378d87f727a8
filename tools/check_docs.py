#!/usr/bin/env python3
"""Checks the pages of the repository, and ends with 1 where one is wrong.

It looks at README.md, CHANGELOG.md, docs/, tools/, clients/ and crates/README.md, in whose tree each crate has a line. The table of docs/ARCHITECTURE.md has each place
that names all kinds of steps of a script. Each name that a page says to be in a crate, or in a file of its definitions, or that links to a
file of code, is there; each module of definitions is in the crate that is named beside it; each file that a page links or names by its path is there; each report that a page shows is what its script prints:
of a script in crates/examples/data the report beside it has those lines, and a script in a page is run, where the program is built; each
picture that docs/PICTURES.md says to be made by a command of clients/draw.py is what it prints, where the program that it runs is built; and the commands of a block
`console`, which begin with `$ `, print what the page shows, where the programs that they name are built. The commands of a section (`## `) are
run one after the other, in one shell and in a folder of their own; a line that begins with `> ` goes on with the command above it.

Blocks `console long`, which prove something, are left out without --long. A page has at most the words of LIMITS. A block whose first line names a file of the repository, as ```rust crates/flt_io/src/lib.rt, is a
quotation: its lines are there, one after the other. Commands are only in blocks `console`, and in the few blocks `sh`: those of the gate, of
measurements and of an editor. Of each of these a short form is run, which SHORTS has and which writes no page, or with --long a longer one; the command of the
gate, which runs this check, is compared with .ci/run. What is not run is named, with what is not there. A link to a heading leads to one.
"""
import argparse
import glob
import os
import re
import shutil
import signal
import socket
import subprocess
import sys
import tempfile
from typing import Iterator, NamedTuple

TOP = os.path.dirname(os.path.dirname(os.path.abspath(__file__)))
PROGRAM = f"{TOP}/crates/faultmem/out/faultmem"
DRAW = f"{TOP}/clients/draw.py"
DRAWN = {"timeline": PROGRAM, "sectors": f"{TOP}/crates/flt_inspect/out/flt_inspect"}
TREE = f"{TOP}/crates/README.md"
PLACES = f"{TOP}/docs/ARCHITECTURE.md"
# Kinds of steps that are written by several words, which keywords have.
WRITTEN = {"Report": ("Pass",), "Post": ("Urge",), "Arming": ("Cut",)}
NAMED = re.compile(
    r"`([A-Za-z0-9_:]+)`(?:, `([A-Za-z0-9_:]+)`)? of \[?`?(?:\.\./)?(?:crates/)?(flt_[a-z_]+)`?\]?(?:/specs/([A-Za-z]+)\.antt)?(?:, `specs/([A-Za-z]+)\.antt`)?"
)
LINK = re.compile(r"\]\(([^)#\s]+)(?:#[^)]*)?\)")
SOURCE = re.compile(r"\b(?:src|srcset)=\"([^\"\s]+)\"")
LINKED = re.compile(r"\[`([A-Za-z0-9_:.]+)`\]\(([^)#\s]+\.(?:rt|antt))\)")
OF_LINK = re.compile(r"((?:`[A-Za-z0-9_:.]+`(?:, | and ))*`[A-Za-z0-9_:.]+`) of \[[^\]]*\]\(([^)#\s]+\.(?:rt|antt))\)")
MODULE = re.compile(r"(?:`(flt_[a-z_]+)`, )?`specs/([A-Za-z]+)\.antt`(?: of `(flt_[a-z_]+)`)?(?: \(((?:`[A-Za-z0-9_:.]+`(?:, | and )?)+)\))?")
PATH = re.compile(r"`((?:crates|docs|bench|tools|clients)/[A-Za-z0-9_./-]*[A-Za-z0-9_])`")
PICTURE = re.compile(r"`(docs/pictures/[a-z_0-9]+\.svg)` \| `clients/draw.py (timeline|sectors) ([^`]+)`")
SCRIPT = re.compile(r"crates/examples/data/([a-z_0-9]+)\.script")
CONSOLE = re.compile(r"^```console\n(.*?)^```$", re.M | re.S)
CONSOLE_OR_LONG = re.compile(r"^```console(?: long)?\n(.*?)^```$", re.M | re.S)
# Which words of a command need which program. What FAULTMEM names, if it is set, is taken to have them all.
NEEDS = (
    (re.compile(r"\./faultmem (?:try )?(?:inspect|trace|audit)\b|clients/(?:trace_of|due)\.py|clients/draw.py sectors"), "flt_inspect"),
    (re.compile(r"\./faultmem (?:try )?(?:run|ea|watch|check|load)\b|clients/(?:trace_of|due)\.py|clients/draw.py (?:timeline|vcd)"), "faultmem"),
    (re.compile(r"\./faultmem (?:try )?live\b|clients/(?:live|doip)\.py"), "faultmem_live"),
)
MARK = "--- command"
SECONDS = 180
SECONDS_OF_LONG = 3600
LIMITS = {"README.md": 900, "docs/PROVED.md": 1700, "docs/DECISIONS.md": 3500, "docs/GATE.md": 1200}
GATE = "rt ci"
PROGRAMS = ("faultmem", "flt_inspect", "faultmem_live")


class Short(NamedTuple):
    """What is run of a command of a block `sh`: {top} is the repository, {run} and {live} are programs, {unproved} is an option."""

    shown: str
    short: str
    # The commands of the system, and the programs, that it needs.
    needs: tuple[str, ...] = ()
    programs: tuple[str, ...] = ()
    # What it prints, as a pattern.
    due: str = ""
    # What is run with --long.
    long: str = ""


MEASURED = "{ {how} bench/run.sh; {how} bench/run.sh 256; } | bench/speed_table.py"
TESTED = "tools/{test}_test.py {count} --live {live} --run {run}"
SHOWN = {"live": "crates/faultmem_live/out/faultmem_live", "run": "crates/faultmem/out/faultmem"}


def filled(text: str, places: dict[str, str]) -> str:
    """The text with these in the places of their names in braces."""
    for name, value in places.items():
        text = text.replace("{" + name + "}", value)
    return text


LIBRARY = "crates/flt_c/out/libflt_c.a"
HEAP = '"$(dirname "$(rt doc)")/c/liblibc_c.a"'


def linked(command: str, compiled: str) -> Short:
    """A command that links the library for C, and what is compiled of it where that is not built."""
    whole = filled(command, {"library": LIBRARY, "heap": HEAP})
    return Short(whole, f"if [ -f {LIBRARY} ]; then {whole}; else {compiled}; fi", needs=("cc", "rt"))


def tested(test: str, count: str) -> Short:
    """A test of the live program: the gate makes it as the page shows it, and this check a short one."""
    short = filled(TESTED, {"test": test, "count": "2"})
    long = filled(TESTED, {"test": test, "count": count})
    return Short(filled(long, SHOWN), short, programs=("faultmem", "faultmem_live"), due=rf"^{test}_test: 2 ", long=long)


SHORTS = (
    Short(GATE, ":"),
    Short(f"{GATE} | tee gate.log", "echo '0 passed, 0 failed: the pages alone are checked' | tee gate.log"),
    Short("bench/gate.py --write", "bench/gate.py --every 0.1 true", due=r"^\| \*\*all\*\* "),
    Short(
        "bench/gate.py sh -c 'cd crates/flt_trace && rt verdict'",
        "bench/gate.py --every 0.1 sh -c 'cd crates/flt_trace && rt version'",
        needs=("rt",),
        due=r"^\| \*\*all\*\* ",
        long="bench/gate.py sh -c 'cd crates/flt_trace && rt verdict'",
    ),
    Short("bench/slowest.py 30", "bench/slowest.py 30", due=r"^\| Seconds \| Function "),
    Short("bench/stack.sh", "bench/stack.sh {live}", programs=("faultmem_live",), due=r"^\d+ KB$"),
    Short(
        "{ bench/run.sh; bench/run.sh 256; } | bench/speed_table.py --write",
        filled(MEASURED, {"how": "PROGRAM={run} RUNS=1 STEPS=1024 LIVES=4"}),
        needs=("valgrind",),
        programs=("faultmem",),
        due=r"^\| lives \| 256 \| ",
        long=filled(MEASURED, {"how": "PROGRAM={run}"}),
    ),
    Short(
        "mkdir -p ~/.vim && cp -r tools/vim/syntax tools/vim/ftdetect ~/.vim/",
        "HOME=$PWD && mkdir -p ~/.vim && cp -r tools/vim/syntax tools/vim/ftdetect ~/.vim/",
    ),
    Short(
        "vim crates/examples/data/first.script",
        "vim -es '+filetype on | edit' '+redir! > kind' '+silent echo &filetype' '+qa!' crates/examples/data/first.script; cat kind; echo",
        needs=("vim",),
        due="^faultmem$",
    ),
    tested("live", "100"),
    tested("kill", "50"),
    Short("./faultmem check </dev/null", "./faultmem check </dev/null", programs=("faultmem",)),
    Short("./faultmem trace </dev/null", "./faultmem trace </dev/null", programs=("flt_inspect",)),
    Short(
        "./faultmem live crates/faultmem_live/data/config </dev/null",
        "./faultmem live crates/faultmem_live/data/config </dev/null",
        programs=("faultmem_live",),
    ),
    Short("tools/build_c.sh", "tools/build_c.sh", needs=("rt",)),
    linked("cc -std=c99 -Ic c/first.c c/faultmem.c {library} {heap} -o first && ./first", "cc -std=c99 -Ic -c c/first.c c/faultmem.c"),
    linked(
        "cc -std=c99 -O2 -fPIC -shared -Ic c/faultmem.c -Wl,--whole-archive {library} -Wl,--no-whole-archive {heap} -o libfaultmem.so",
        "cc -std=c99 -O2 -fPIC -Ic -c c/faultmem.c",
    ),
    Short(
        "mkdir -p made && tools/release.sh gate.log made",
        "mkdir -p made && {top}/tools/release.sh {unproved} gate.log made",
        programs=PROGRAMS,
        due=r"/made/faultmem-.*\.tar\.gz$",
    ),
)
FENCED = re.compile(r"^```([^\n]*)\n(.*?)^```$", re.M | re.S)
COMMAND = re.compile(r"(?:\$ |\./faultmem |rt [a-z]|(?:clients|tools|bench)/[a-z_]+\.(?:py|sh) |(?:cd|export|mkdir|printf|python3) )")
# The commands of README's first table.
BEGIN_WITH = re.compile(r"\| `((?:FAULTMEM=\S+ \S+ )?(?:\./faultmem|clients/)[^`]*)` \|$", re.M)
TO_HEADING = re.compile(r"\]\(([^)#\s]*)#([^)\s]+)\)")


def text_of(path):
    with open(path, encoding="utf-8") as it:
        return it.read()


def words_of(crate, found={}):
    """Returns the sources and definitions of a crate, one after the other."""
    if crate not in found:
        files = glob.glob(f"{TOP}/crates/{crate}/**/*", recursive=True)
        found[crate] = "".join(text_of(it) for it in files if it.endswith((".rt", ".antt")) and "/out/" not in it)
    return found[crate]


def wrong_names(text):
    for match in NAMED.finditer(text):
        for name in match.group(1, 2):
            if not name:
                continue
            crate, module = match.group(3), match.group(4) or match.group(5)
            word = re.compile(rf"\b{re.escape(name.split('::')[-1])}\b")
            if not word.search(words_of(crate)):
                yield f"{name} does not stand in {crate}"
            path = f"{TOP}/crates/{crate}/specs/{module}.antt"
            if module and not (os.path.exists(path) and word.search(text_of(path))):
                yield f"{name} does not stand in {module} of {crate}"


def wrong_rows(text):
    """Names in the last cell of a row that begins with a crate, where none of the crates that the row names has them."""
    for line in text.split("\n"):
        cells = [cell.strip() for cell in line.split(" | ")]
        begins = re.match(r"\| (flt_[a-z_]+)$", cells[0])
        if not begins or len(cells) < 3:
            continue
        crates = {begins.group(1), *re.findall(r"flt_[a-z_]+", cells[-1])}
        for name in re.findall(r"`([A-Za-z0-9_:]+)`", cells[-1]):
            word = re.compile(rf"\b{re.escape(name.split('::')[-1])}\b")
            if not any(word.search(words_of(crate)) for crate in crates):
                yield f"{name} does not stand in {begins.group(1)}"


def stands_in(name, path):
    last = re.split(r"::|\.", name)[-1]
    return last == os.path.splitext(os.path.basename(path))[0] or re.search(rf"\b{re.escape(last)}\b", text_of(path))


def wrong_links(page, text):
    """Names that link to a file of code or of definitions, or are said to be of one that is linked, and that it does not have."""
    of_links = [(name, link) for names, link in OF_LINK.findall(text) for name in re.findall(r"`([^`]+)`", names)]
    for name, link in LINKED.findall(text) + of_links:
        path = os.path.join(os.path.dirname(page), link)
        if os.path.exists(path) and not stands_in(name, path):
            yield f"{name} does not stand in {link}"


def wrong_modules(text):
    """Modules of definitions that are not in the crate that is named beside them, or in none, and names after them that they do not have."""
    for before, module, behind, names in MODULE.findall(text):
        crate = before or behind
        paths = glob.glob(f"{TOP}/crates/{crate or 'flt_*'}/specs/{module}.antt")
        if not paths:
            yield f"there is no specs/{module}.antt of {crate or 'any crate'}"
        for name in re.findall(r"`([^`]+)`", names) if paths else []:
            if not any(stands_in(name, path) for path in paths):
                yield f"{name} does not stand in specs/{module}.antt"


def missing_files(page, text):
    for link in LINK.findall(text) + SOURCE.findall(text):
        if "://" not in link and not os.path.exists(os.path.join(os.path.dirname(page), link)):
            yield f"the link {link} leads nowhere"
    for path in PATH.findall(text):
        if not os.path.exists(f"{TOP}/{path}"):
            yield f"there is no {path}"


def blocks_of(text):
    """Yields the fenced and indented blocks of a page: the lines of each, whether it is fenced, and the text since the block before."""
    since, block, fenced = [], [], False
    for line in text.split("\n") + [""]:
        if line.startswith("```"):
            if fenced:
                yield block, True, "\n".join(since)
                since, block = [], []
            fenced = not fenced
        elif fenced or line.startswith("    "):
            block.append(line if fenced else line[4:])
        else:
            if block:
                yield block, False, "\n".join(since)
                since, block = [], []
            since.append(line)


def without_info(text: str) -> str:
    """The page without the fenced blocks that are said to be something, as `console` and quotations are."""
    return FENCED.sub(lambda found: "" if found[1] else found[0], text)


def has_lines(lines, wanted):
    return any(lines[at : at + len(wanted)] == wanted for at in range(len(lines) - len(wanted) + 1))


def wrong_reports(text):
    script, name = None, None
    for block, is_fenced, before in blocks_of(without_info(text)):
        if before.strip() and not is_fenced and re.search(r"^#", before, re.M):
            script, name = None, None
        named = SCRIPT.findall("\n".join([before] + block))
        name = named[-1] if named else name
        is_report = re.match(r"life 1 ", block[0])
        if is_fenced and not is_report:
            script = block
        elif is_report and script is not None:
            if os.access(PROGRAM, os.X_OK):
                ran = subprocess.run([PROGRAM, "run"], input="\n".join(script) + "\n", capture_output=True, text=True)
                if ran.stdout != "\n".join(block) + "\n":
                    yield f"the script that begins with '{script[0]}' prints another report"
        elif is_report and name is not None:
            report = f"{TOP}/crates/examples/data/{name}.report"
            if not os.path.exists(report) or not has_lines(text_of(report).split("\n"), block):
                yield f"{name}.script prints another report"


def commands_of(section: str, with_long: bool) -> list[tuple[str, list[str]]]:
    """The commands of a section, each with the lines that are shown after it."""
    found = []
    for line in "".join((CONSOLE_OR_LONG if with_long else CONSOLE).findall(section)).split("\n")[:-1]:
        if line.startswith("$ "):
            found.append((line[2:], []))
        elif found and not found[-1][1] and (line == ">" or line.startswith("> ")):
            found[-1] = (f"{found[-1][0]}\n{line[2:]}", [])
        elif found:
            found[-1][1].append(line)
    return found


def file_of(program: str, kind: str) -> str:
    """The file of a program of this kind: `proved`, or `try` where it is without its proofs."""
    return f"{TOP}/crates/{program}/out/{'try' if kind == 'try' else program}"


def kind_of(programs: set[str]) -> str:
    """Of which kind all these programs are built: of none where it is empty."""
    kinds = ("proved", "try")
    return next((kind for kind in kinds if all(os.access(file_of(it, kind), os.X_OK) for it in programs)), "")


def programs_of(commands) -> set[str]:
    """The programs that these commands name."""
    return {program for command, _ in commands for words, program in NEEDS if words.search(command)}


def wrapper_for(commands):
    """The command in place of ./faultmem: with `try` where a program is built without its proofs alone; none where one is not built."""
    if os.environ.get("FAULTMEM"):
        return os.environ["FAULTMEM"]
    return {"proved": f"{TOP}/faultmem", "try": f"{TOP}/faultmem try"}.get(kind_of(programs_of(commands)))


def free_port():
    """A port that is free, as is the one after it."""
    while True:
        with socket.create_server(("127.0.0.1", 0)) as one:
            port = one.getsockname()[1]
            try:
                with socket.create_server(("127.0.0.1", port + 1)), socket.socket(socket.AF_INET, socket.SOCK_DGRAM) as udp:
                    udp.bind(("127.0.0.1", port))
                    return port
            except (OSError, OverflowError):
                continue


def printed_by(commands, wrapper, port, seconds=SECONDS):
    """What these commands print, each in a text of its own, run in a new folder that looks like the top of the repository."""
    script = "".join(f"echo; echo '{MARK}'\n{command}\n" for command, _ in commands)
    with tempfile.TemporaryDirectory() as folder:
        for name in ("bench", "c", "clients", "crates", "crates.txt", "docs", "tools"):
            os.symlink(f"{TOP}/{name}", f"{folder}/{name}")
        with open(f"{folder}/faultmem", "w", encoding="utf-8") as shim:
            # A page may say `try` itself.
            shim.write(f'#!/bin/sh\n[ "$1" != try ] || shift\nexec {wrapper} "$@"\n')
        os.chmod(shim.name, 0o755)
        environment = {**os.environ, "FAULTMEM": wrapper, "DOIP_PORT": str(port)}
        with open(f"{folder}/told", "w", encoding="utf-8") as told, open(f"{folder}/printed", "w+", encoding="utf-8") as printed:
            shell = subprocess.Popen(["sh", "-c", script], cwd=folder, env=environment, stdin=subprocess.DEVNULL, stdout=printed, stderr=told, start_new_session=True)
            try:
                shell.wait(seconds)
            except subprocess.TimeoutExpired:
                pass
            finally:
                # What the commands left running is of this session alone.
                try:
                    os.killpg(shell.pid, signal.SIGTERM)
                except ProcessLookupError:
                    pass
                shell.wait()
            printed.seek(0)
            return printed.read().split(f"\n{MARK}\n")[1:]


def wrong_commands(text, with_long=False):
    """Commands of a page that print something else than the page shows."""
    for section in re.split(r"^## ", text, flags=re.M):
        commands = commands_of(section, with_long)
        wrapper = wrapper_for(commands) if commands else None
        if wrapper is None:
            continue
        port = free_port()
        printed = printed_by(commands, wrapper, port, SECONDS_OF_LONG if with_long else SECONDS)
        for at, (command, shown) in enumerate(commands):
            due = "".join(f"{line}\n" for line in shown)
            given = printed[at] if at < len(printed) else "(nothing, since an earlier command did not end)"
            given = given.replace(str(port + 1), "13401").replace(str(port), "13400")
            if given.rstrip("\n") != due.rstrip("\n"):
                yield f"'{command}' prints another text:\n{given}"


def shorts_of(section: str) -> list[tuple[str, Short | None]]:
    """The commands of the blocks `sh` of a section, each with what is run of it."""
    lines = [line for info, block in FENCED.findall(section) if info == "sh" for line in block.split("\n") if line]
    return [(line, next((it for it in SHORTS if it.shown == line), None)) for line in lines]


def absent_for(short: Short) -> list[str]:
    """What a command needs and is not here, by name."""
    absent = [it for it in short.needs if shutil.which(it) is None]
    if kind_of(set(short.programs)):
        return absent
    # Where each is there, they are not all of one kind.
    unbuilt = [it for it in short.programs if not kind_of({it})] or short.programs
    return absent + [f"the program {it}" for it in unbuilt]


def wrong_shorts(text: str, with_long: bool = False, run=f"{TOP}/.ci/run") -> Iterator[str]:
    """Commands of blocks `sh` that nobody runs, that the gate is not, or whose short forms fail."""
    for section in re.split(r"^## ", text, flags=re.M):
        commands = []
        for command, short in shorts_of(section):
            if short is None:
                yield f"'{command}' has no short form, so nobody runs it"
            elif command.split(" | ")[0] == GATE and GATE not in text_of(run).split("\n"):
                yield f"'{command}' is not the gate of .ci/run"
            elif not absent_for(short):
                commands.append((short, kind_of(set(short.programs))))
        yield from wrong_runs(commands, with_long)


def wrong_runs(commands: list[tuple[Short, str]], with_long: bool) -> Iterator[str]:
    """Those of these commands of a section that do not end with status 0, or print something else than is due."""
    lines = []
    for short, kind in commands:
        places = {"top": TOP, "run": file_of("faultmem", kind), "live": file_of("faultmem_live", kind), "unproved": "--unproved" if kind == "try" else ""}
        line = filled(short.long if with_long and short.long else short.short, places)
        lines.append((f"{line}\necho \"status $?\"", []))
    if not lines:
        return
    wrapper = f"{TOP}/faultmem" + (" try" if any(kind == "try" for _, kind in commands) else "")
    printed = printed_by(lines, wrapper, free_port(), SECONDS_OF_LONG if with_long else SECONDS)
    for at, (short, _) in enumerate(commands):
        given = printed[at] if at < len(printed) else ""
        due = "" if with_long and short.long else short.due
        if not given.endswith("status 0\n") or not re.search(due, given, re.M):
            yield f"'{short.shown}' fails in its short form:\n{given}"


def unrun_on(page: str, text: str, with_long: bool) -> Iterator[str]:
    """What is not run of a page, each with what it needs."""
    table = BEGIN_WITH.findall(text) if os.path.relpath(page, TOP) == "README.md" else []
    sections = re.split(r"^## ", text, flags=re.M)
    for commands in [[(it, []) for it in table], *(commands_of(it, with_long) for it in sections)]:
        if commands and wrapper_for(commands) is None:
            absent = ", ".join(sorted(it for it in programs_of(commands) if not kind_of({it})))
            yield f"{len(commands)} commands from '{commands[0][0]}' on: not built: {absent}"
    for section in sections:
        for command, short in shorts_of(section):
            if short and absent_for(short):
                yield f"'{command}': not there: {', '.join(absent_for(short))}"
    for picture, word, _ in PICTURE.findall(text):
        if not os.access(DRAWN[word], os.X_OK):
            yield f"the picture {picture}: not built: {os.path.basename(DRAWN[word])}"
    scripts = len(re.findall(r"^```\nlife 1 ", text, re.M))
    if scripts and not os.access(PROGRAM, os.X_OK):
        yield f"scripts of {scripts} reports: not built: {os.path.basename(PROGRAM)}"
    for block in [] if with_long else re.findall(r"^```console long\n(.*)$", text, re.M):
        yield f"'{block[2:]}': without --long"


def wrong_beginnings(page: str, text: str):
    """Commands of README's first table that do not end with status 0, or, where they serve until they are ended, do not serve."""
    if os.path.relpath(page, TOP) != "README.md":
        return
    commands = []
    for command in BEGIN_WITH.findall(text):
        # The check says by itself with which FAULTMEM.
        bare = re.sub(r"^FAULTMEM=\S+ \S+ ", "", command)
        serving = "{} > told.log & until grep -q ready told.log; do sleep 0.2; done; cut -d ' ' -f 1 told.log; kill $!"
        ending = serving if "doip" in bare else "{} > told.log; echo $?"
        commands.append((ending.format(bare), ["ready" if "doip" in bare else "0"]))
    if len(commands) < 3:
        yield "the first table has fewer than three commands"
    wrapper = wrapper_for(commands)
    printed = printed_by(commands, wrapper, free_port()) if wrapper else []
    for (command, due), given in zip(commands, printed):
        if given.strip() != due[0]:
            yield f"'{command}' prints {given.strip()}, and not {due[0]}"


def wrong_length(page: str, text: str):
    """A page that has more words than it may: words are what blanks divide."""
    most = LIMITS.get(os.path.relpath(page, TOP))
    if most is not None and len(text.split()) > most:
        yield f"it has {len(text.split())} words, and {most} are allowed"


def wrong_numbers(page: str, text: str):
    """Numbers of README that differ from those of the repository."""
    if os.path.relpath(page, TOP) != "README.md":
        return
    crates = len(re.findall(r"^[a-z_]+[^#\n]*:", text_of(f"{TOP}/crates.txt"), re.M))
    edits = len(glob.glob(f"{TOP}/crates/*/must-fail/*.edit"))
    for count, what in ((crates, "crates"), (edits, "wrong edits")):
        if f"{count} {what}" not in text:
            yield f"the repository has {count} {what}"


def wrong_quotations(text: str):
    """Blocks that are said to be in a file, and are not."""
    for info, block in FENCED.findall(text):
        path = f"{TOP}/{info.split()[-1]}" if len(info.split()) == 2 else ""
        if "/" not in info or not path:
            continue
        if not os.path.exists(path):
            yield f"there is no {info.split()[-1]} to be quoted"
        elif not has_lines(text_of(path).split("\n"), block.split("\n")[:-1]):
            yield f"{info.split()[-1]} has other lines than are quoted: {block.split(chr(10))[0]}"


def wrong_blocks(text: str):
    """Commands in blocks that nobody runs."""
    for info, block in FENCED.findall(text):
        if info not in ("console", "console long", "sh") and any(COMMAND.match(line) for line in block.split("\n")):
            yield f"a command stands in a block that is no `console`: {block.split(chr(10))[0]}"
    for block, is_fenced, _ in blocks_of(FENCED.sub("", text)):
        for line in block:
            if COMMAND.match(line):
                yield f"a command stands in a block that is no `console`: {line}"


def headings_of(path: str) -> set[str]:
    """The names by which links lead to the headings of a page."""
    lines = re.findall(r"^#+ (.*)$", FENCED.sub("", text_of(path)), re.M)
    return {re.sub(r"[^\w\- ]", "", line.lower()).replace(" ", "-") for line in lines}


def wrong_headings(page: str, text: str):
    """Links to headings that are not there."""
    for link, heading in TO_HEADING.findall(text):
        path = os.path.join(os.path.dirname(page), link) if link else page
        if "://" not in link and path.endswith(".md") and os.path.exists(path) and heading not in headings_of(path):
            yield f"{link} has no heading #{heading}"


def wrong_pictures(text):
    for picture, word, rest in PICTURE.findall(text):
        if not os.access(DRAWN[word], os.X_OK):
            continue
        ran = subprocess.run([sys.executable, DRAW, word, "--program", DRAWN[word], *rest.split()], capture_output=True, cwd=TOP)
        if ran.stdout != text_of(f"{TOP}/{picture}").encode():
            yield f"`clients/draw.py {word} {rest}` draws another picture than {picture}"


def wrong_tree(page, text):
    """Crates without a line in the tree of the crates, and lines of it for what is none."""
    if page != TREE:
        return
    told = re.findall(r"^ {4} *([a-z_]+) +\S", text, re.M)
    crates = re.findall(r"^([a-z_]+)[^#\n]*:", text_of(f"{TOP}/crates.txt"), re.M)
    for name in sorted(set(crates) ^ set(told)):
        yield f"{name} has no line in the tree" if name in crates else f"{name} is no crate"


def item_of(path, name):
    """Returns the item of this name in a file: from the line that declares it to the next blank line at its end, or nothing."""
    declared = re.search(rf"^[^\n/]*\b(?:enum|fn|abbrev pub|unfoldable pub) {re.escape(name)}\b.*?(?=\n\n|\Z)", text_of(path), re.M | re.S)
    return declared.group(0) if declared else ""


def wrong_places(page, text):
    """Places of the table of steps that lack a kind of step, and files that name all kinds and are not in the table."""
    if page != PLACES:
        return
    step = item_of(f"{TOP}/crates/flt_step/src/step.rt", "Step")
    kinds = re.findall(r"^    ([A-Z][a-z]+)\b", step, re.M)
    table = re.findall(r"^\|.*\bin `crates/.*\|$", text.split("## How to add a line to the script language", 1)[-1], re.M)
    places = [place for row in table for place in re.findall(r"((?:`[A-Za-z_]+`(?: and )?)+) in `(crates/[A-Za-z0-9_/.]+)`", row)]
    if len(kinds) < 10 or len(places) < 10:
        yield "the table of the places of a step can't be read"
    for names, path in places:
        for name in re.findall(r"`([A-Za-z_]+)`", names):
            found = item_of(f"{TOP}/{path}", name)
            for kind in kinds if "trace" not in path else []:
                if not re.search(rf"\b{kind}\b", found) and not (kind in WRITTEN and any(word in found for word in WRITTEN[kind])):
                    yield f"{name} of {path} has no {kind}"
    listed = {path for _, path in places}
    for path in glob.glob(f"{TOP}/crates/flt_*/src/**/*.rt", recursive=True) + glob.glob(f"{TOP}/crates/flt_*/specs/*.antt"):
        short = os.path.relpath(path, TOP)
        named = set(re.findall(r"\b(?:Step|step|steps)(?:::|\.)([A-Z][a-z]+)\b", text_of(path)))
        if "_tests/" not in short and short not in listed and set(kinds) - named in (set(), {"Arming"}):
            yield f"{short} names all kinds of steps, and is not in the table"


def wrong_on(page: str, with_long: bool):
    """All that is wrong on a page."""
    text = text_of(page)
    yield from wrong_length(page, text)
    yield from wrong_numbers(page, text)
    yield from wrong_names(text)
    yield from wrong_rows(text)
    yield from wrong_links(page, text)
    yield from wrong_modules(text)
    yield from missing_files(page, text)
    yield from wrong_headings(page, text)
    yield from wrong_quotations(text)
    yield from wrong_blocks(text)
    yield from wrong_reports(text)
    yield from wrong_commands(text, with_long)
    yield from wrong_shorts(text, with_long)
    yield from wrong_beginnings(page, text)
    yield from wrong_pictures(text)
    yield from wrong_tree(page, text)
    yield from wrong_places(page, text)


def main() -> int:
    """Checks the pages that are named, or all."""
    parser = argparse.ArgumentParser(description=__doc__, formatter_class=argparse.RawDescriptionHelpFormatter)
    parser.add_argument("--long", action="store_true", help="run the commands that prove something too")
    parser.add_argument("pages", metavar="PAGE", nargs="*", help="the pages that are checked; all if none is given")
    given = parser.parse_args()
    all_pages = [f"{TOP}/README.md", f"{TOP}/CHANGELOG.md", TREE]
    for folder in ("docs", "tools", "clients"):
        all_pages += glob.glob(f"{TOP}/{folder}/*.md")
    pages = [os.path.abspath(it) for it in given.pages] or sorted(all_pages)
    wrong = 0
    for page in pages:
        for what in wrong_on(page, given.long):
            print(f"{os.path.relpath(page, TOP)}: {what}", flush=True)
            wrong += 1
        for what in unrun_on(page, text_of(page), given.long):
            print(f"{os.path.relpath(page, TOP)}: not run: {what}", flush=True)
    print(f"pages: {'each is right' if not wrong else f'{wrong} faults'}")
    return 1 if wrong else 0


if __name__ == "__main__":
    sys.exit(main())
