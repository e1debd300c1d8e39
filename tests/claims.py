#!/usr/bin/env python3
"""The claims of the pages against the sources.

    claims.py            compares
    claims.py --write    writes the table of lines in docs/PROVED.md anew

Of each row of docs/PROVED.md: its functions stand in the files named, with the clauses named; a contract among them cites each
definition named, which stands in its file of specs; and the program reaches the functions or doesn't, as the row says. The table
of lines has each crate, with lines that are right to a tenth. Of docs/ONE_CELL.md: each function stands in the file named, the
program reaches it, and its body names the functions that the row says it calls. Of all pages: links lead somewhere, files that are
named exist, and each crate is named in docs/ARCHITECTURE.md. README.md has the kit and the limits, and
docs/HEADLINE.md the clauses of `run`. What a program reaches is found by names: a call of a method counts
for each method of that name. The last line is 'N passed, M failed'.
"""
import collections
import os
import re
import shutil
import subprocess
import sys

TOP = os.path.realpath(os.path.join(os.path.dirname(os.path.abspath(__file__)), ".."))
PAGES = ["README.md", "CHANGES.md", "bench/README.md"] + [f"docs/{it}" for it in sorted(os.listdir(os.path.join(TOP, "docs"))) if it.endswith(".md")]
PROVED, WALK, ARCHITECTURE = "docs/PROVED.md", "docs/ONE_CELL.md", "docs/ARCHITECTURE.md"
FUNCTION = re.compile(r"^( *)(?:pub(?:\(\w+\))? )?(?:const )?fn (\w+)", re.M)


def read(path):
    with open(os.path.join(TOP, path), encoding="utf-8") as f:
        return f.read()


def crates():
    """The crates with those that they stand on."""
    lines = [line.split("#")[0].partition(":") for line in read("crates.txt").split("\n")]
    return {head.split()[0]: below.split() for head, colon, below in lines if colon}


class Function:
    def __init__(self, crate, file, owner, name, contract, body):
        self.crate, self.file, self.name, self.contract, self.body = crate, file, name, contract, body
        self.type, self.of_trait = owner


def functions_of(crate, file, text):
    """The functions of a file, each with the type that it belongs to, its contract, and its body."""
    found = []
    owners = [(it.start(), (it.group(2), bool(it.group(1))), it.start() + len(text[it.start():].split("\n}\n")[0])) for it in re.finditer(
        r"^(?:pub )?(?:impl|trait)(?:<.*?>)? (.* for )?(\w+)", text, re.M)]
    for it in FUNCTION.finditer(text):
        owner = next((name for start, name, end in owners if start < it.start() < end), (None, False))
        rest = text[it.start():]
        indent = it.group(1)
        # The contract ends where the body opens: at a brace of its own line, or behind a head without clauses.
        opened = re.search(rf"^{indent}\{{|^[^\n]*[^{{\s]\s*\{{$|;$", rest, re.M)
        if not opened:
            continue
        contract = rest[:opened.start() if opened.group().strip() == "{" else opened.end()]
        closed = re.search(rf"^{indent}\}}", rest[len(contract):], re.M)
        body = "" if opened.group() == ";" else rest[len(contract):len(contract) + (closed.end() if closed else 0)]
        found.append(Function(crate, file, owner, it.group(2), contract, body))
    return found


class Sources:
    def __init__(self):
        self.below = crates()
        self.texts, self.functions, self.uses, self.traits = {}, [], {}, set()
        for crate in self.below:
            folder = os.path.join(TOP, "crates", crate, "src")
            for file in sorted(os.listdir(folder)):
                if file.endswith(".rt") and file != "tests.rt":
                    text = read(f"crates/{crate}/src/{file}")
                    self.texts[crate, file] = text
                    self.functions += functions_of(crate, file, text)
                    self.traits |= set(re.findall(r"^pub trait (\w+)", text, re.M))
        self.named = collections.defaultdict(list)
        for it in self.functions:
            self.named[it.name].append(it)
        self.over = {crate: self.closure(crate) for crate in self.below}
        self.reached = self.reach()

    def closure(self, crate):
        done, left = set(), [crate]
        while left:
            it = left.pop()
            if it not in done and it in self.below:
                done.add(it)
                left += self.below[it]
        return done

    def reach(self):
        """What `main` of xrs may call, by names."""
        left = [it for it in self.named["main"] if it.crate == "xrs"]
        done = set(left)
        while left:
            it = left.pop()
            for other in self.called(it):
                if other not in done:
                    done.add(other)
                    left.append(other)
        return done

    def called(self, it):
        body = re.sub(r"//.*", "", it.body)
        brought = self.brought(it.crate, it.file)
        for before, dot, name in set(re.findall(r"(\w*)(\.|::)?\b([a-z_]\w*)\b", body)):
            crate, file, there = (None, None, name) if dot else brought.get(name, (it.crate, it.file, name))
            for other in self.named.get(there, ()):
                # (what meets a trait may stand in a crate above the one that calls it)
                if other.crate not in self.over["xrs" if other.of_trait and dot == "." else it.crate]:
                    continue
                if other.type:
                    # (what an operator or a loop calls has no name here; no row of the pages is one of these)
                    owner = it.type if before == "Self" else before
                    if dot == "." or dot == "::" and (owner == other.type or owner in self.traits):
                        yield other
                elif dot == "::":
                    if before == other.crate or other.crate == it.crate and before == other.file[:-3]:
                        yield other
                elif not dot and other.crate == crate and file in (None, other.file):
                    yield other

    def brought(self, crate, file):
        """What the `use` lines of a file bring, by its name there: the crate, the file within the same crate, and the name at its place."""
        if (crate, file) not in self.uses:
            found = {}
            for path, braces, alias in re.findall(r"^use ([\w:]+?)(?:::\{(.*?)\})?(?: as (\w+))?;", self.texts[crate, file], re.M | re.S):
                steps = path.split("::")
                for name in braces.split(",") if braces else [steps[-1]]:
                    there, _, here = name.strip().partition(" as ")
                    at = steps if braces else steps[:-1]
                    found[alias or here or there] = (crate, at[1] + ".rt", there) if at[0] == "crate" and len(at) > 1 else (at[0], None, there)
            self.uses[crate, file] = found
        return self.uses[crate, file]


def cells_of(line):
    return [it.strip() for it in line.strip().split("|")[1:-1]]


def rows(text, head):
    """The rows of a table that has this head."""
    at = text.index(head)
    lines = text[at:].split("\n")[2:]
    return [cells_of(line) for line in lines[:next((n for n, it in enumerate(lines) if not it.startswith("|")), len(lines))]]


def check_proved(sources, wrong):
    count, crate = 0, None
    for row in rows(read(PROVED), "| Crate | Proved | Contract | Definition | Program |"):
        name, claim, contract, definition, program = row
        crate = name.strip("`") or crate
        where = f"{PROVED}, {crate}, {claim[:40]!r}"
        cited, all_ = [], []
        for group in contract.split("; "):
            named, _, file = group.rpartition(" in ")
            file = file.strip("`")
            if (crate, file) not in sources.texts:
                wrong.append(f"{where}: there is no file {file}")
                continue
            for it in re.findall(r"`([^`]+)`", named):
                head, _, clause = it.partition(".")
                type_, _, fn = head.rpartition("::")
                found = [f for f in sources.named[fn] if (f.crate, f.file) == (crate, file) and (not type_ or f.type == type_)]
                if not found:
                    wrong.append(f"{where}: {file} has no function {head}")
                    continue
                if clause and not any(re.search(rf"^ *ensures {clause}\b", f.contract, re.M) for f in found):
                    wrong.append(f"{where}: {head} has no clause {clause}")
                cited.append("\n".join(f.contract for f in found) + sources.texts[crate, file][:0])
                all_ += found
                count += 1
                reached = any(f in sources.reached for f in found)
                if program not in ("yes", "no", "law") or reached != (program == "yes"):
                    wrong.append(f"{where}: the program {'reaches' if reached else 'does not reach'} {head}")
        for it in re.findall(r"`([^`]+)`", definition):
            at, _, word = it.rpartition(".")
            over, _, file = at.rpartition("/")
            path = f"crates/{over or crate}/specs/{file}.antt"
            if not os.path.exists(os.path.join(TOP, path)) or not re.search(rf"^\s*(?:(?:abbrev|unfoldable|opaque|pub|data|record)\s+)+{re.escape(word)}\b", read(path), re.M):
                wrong.append(f"{where}: {path} doesn't define {word}")
                continue
            count += 1
            if not any(cites(sources, f, over or crate, file, word) for f in all_):
                wrong.append(f"{where}: no contract named cites {it}")
    return count


def cites(sources, function, crate, file, word):
    """Whether a contract cites a definition, under the name that its file gives it."""
    text = sources.texts[function.crate, function.file]
    for names in re.findall(rf"ghost use Rattle\.{crate}\.specs\.{re.escape(file)}\.\{{(.*?)\}}", text):
        for it in names.split(","):
            there, _, here = it.strip().partition(" as ")
            if there == word and re.search(rf"(?<![\w.]){re.escape(here or there)}\b", function.contract):
                return True
    for alias in re.findall(rf"ghost use Rattle\.{crate}\.specs\.{re.escape(file)} as (\w+)", text):
        if re.search(rf"\b{alias}\.{re.escape(word)}\b", function.contract):
            return True
    return False


def lines_in(crate, part):
    total = 0
    for at, _, files in os.walk(os.path.join(TOP, "crates", crate, part)):
        for name in files:
            with open(os.path.join(at, name), encoding="utf-8") as f:
                total += sum(1 for _ in f)
    return total


LINES = "| Crate | Code | Definitions | Proofs |"


def check_lines(sources, wrong, write):
    text = read(PROVED)
    listed = {row[0].strip("`"): row[1:] for row in rows(text, LINES)}
    now = {crate: [lines_in(crate, part) for part in ("src", "specs", "proofs")] for crate in sources.below}
    now["all"] = [sum(it[n] for it in now.values()) for n in range(3)]
    if write:
        at = text.index(LINES)
        old = text[at:text.index("\n\n", at)] if "\n\n" in text[at:] else text[at:].rstrip("\n")
        made = [LINES, "|---|---|---|---|"] + [f"| {'all' if c == 'all' else f'`{c}`'} | " + " | ".join(f"{n:,}" for n in it) + " |" for c, it in now.items()]
        with open(os.path.join(TOP, PROVED), "w", encoding="utf-8") as f:
            f.write(text.replace(old, "\n".join(made)))
        return 0
    for crate, numbers in now.items():
        said = [int(it.replace(",", "")) for it in listed.get(crate, ())]
        if len(said) != 3 or any(abs(a - b) > max(30, b // 10) for a, b in zip(said, numbers)):
            wrong.append(f"{PROVED}: {crate} has {numbers} lines, not {said}; tests/claims.py --write writes the table anew")
    for crate in listed:
        if crate not in now:
            wrong.append(f"{PROVED}: there is no crate {crate}")
    return len(now)


def check_walk(sources, wrong):
    count = 0
    if not os.path.exists(os.path.join(TOP, WALK)):
        wrong.append(f"there is no {WALK}")
        return count
    for row in rows(read(WALK), "| Step | Function | File |"):
        step, function, file = row[0], row[1], row[2]
        crate, _, name = file.strip("`").partition("/src/")
        found = [it for it in sources.functions if (it.crate, it.file) == (crate, name) and it.name in re.findall(r"`([^`]+)`", function)]
        wanted = re.findall(r"`([^`]+)`", function)
        for it in wanted:
            here = [f for f in found if f.name == it]
            if not here:
                wrong.append(f"{WALK}, step {step}: {file} has no function {it}")
            elif not any(f in sources.reached for f in here):
                wrong.append(f"{WALK}, step {step}: the program doesn't reach {it}")
            count += 1
        calls = re.findall(r"`([^`]+)`", row[4]) if len(row) > 4 else []
        for it in calls:
            if not any(re.search(rf"\b{it}\b", f.body) for f in found):
                wrong.append(f"{WALK}, step {step}: {' and '.join(wanted)} don't name {it}")
            count += 1
    return count


def check_pages(sources, wrong):
    count = 0
    for page in PAGES:
        if not os.path.exists(os.path.join(TOP, page)):
            wrong.append(f"there is no {page}")
            continue
        text = read(page)
        plain = re.sub(r"```.*?```", "", text, flags=re.S)
        for link in re.findall(r"\]\(([^)\s]+)\)", plain):
            path, _, mark = link.partition("#")
            to = os.path.normpath(os.path.join(TOP, os.path.dirname(page), path)) if path else os.path.join(TOP, page)
            if re.match(r"https?:", link):
                continue
            count += 1
            if not os.path.exists(to):
                wrong.append(f"{page}: the link {link} leads nowhere")
            elif mark and to.endswith(".md") and mark not in marks(to):
                wrong.append(f"{page}: {path or page} has no heading for {link}")
        for it in re.findall(r"`((?:crates|tests|tools|docs|bench|examples|\.ci)/[\w./-]+)`", plain):
            count += 1
            if "NAME" not in it and not os.path.exists(os.path.join(TOP, it)):
                wrong.append(f"{page}: there is no {it}")
        for it in re.findall(r"`(\w+/(?:src|specs|proofs)/[\w./-]+)`", plain):
            count += 1
            if not os.path.exists(os.path.join(TOP, "crates", it)):
                wrong.append(f"{page}: there is no crates/{it}")
    for crate in sources.below:
        count += 1
        if f"`{crate}`" not in read(ARCHITECTURE):
            wrong.append(f"{ARCHITECTURE} doesn't name {crate}")
    return count


# What README.md says of each limit of the program.
SAID_LIMITS = {"MOST_FILE_BYTES": "{:,} bytes", "MOST_DIMENSIONS": "{} dimensions", "MOST_CELLS": "2^25 cells", "MOST_VARIABLES": "{:,} variables", "MOST_STATEMENTS": "{:,} statements"}


def check_facts(wrong):
    """The kit, the limits and the clauses of `run`, where pages name them."""
    readme, count = read("README.md"), 0
    kits = [set(re.findall(r"rattle-kit-\S+ logic \w+", read(page))) for page in ("README.md", PROVED)]
    here = subprocess.run(["rt", "version"], capture_output=True, text=True).stdout.strip() if shutil.which("rt") else min(kits[0])
    if kits[0] != kits[1] or here not in kits[0] or len({it.rpartition(" ")[2] for it in kits[0]}) != 1:
        wrong.append(f"the pages name the kits {sorted(kits[0])} and {sorted(kits[1])}, and `rt version` {here}")
    limits = dict(re.findall(r"^pub const (\w+): \w+ = ([\d_]+);", read("crates/xr_types/src/limits.rt"), re.M))
    for name, said in SAID_LIMITS.items():
        if name not in limits or said.format(int(limits[name].replace("_", ""))) not in readme or name == "MOST_CELLS" and int(limits[name].replace("_", "")) != 1 << 25:
            wrong.append(f"README.md doesn't have the limit {name}, {limits.get(name)}, as {said!r}")
        count += 1
    run = re.search(r"^pub fn run<.*?^\{", read("crates/xr_run/src/top.rt"), re.M | re.S).group()
    clauses = re.findall(r"^ *ensures (\w+)", run, re.M)
    listed = [name for row in rows(read("docs/HEADLINE.md"), "| Clause | What it says | What it needs |") for name in re.findall(r"`(\w+)`", row[0])]
    if listed != clauses:
        wrong.append(f"docs/HEADLINE.md has the clauses {listed} of run, which has {clauses}")
    return count + 2


def marks(path):
    with open(path, encoding="utf-8") as f:
        heads = re.findall(r"^#+ (.*)$", f.read(), re.M)
    return {re.sub(r"[^\w\- ]", "", it.lower()).replace(" ", "-") for it in heads}


def main():
    sources, wrong = Sources(), []
    if sys.argv[1:] == ["--write"]:
        check_lines(sources, wrong, True)
        return 0
    passed = check_proved(sources, wrong) + check_lines(sources, wrong, False) + check_walk(sources, wrong) + check_pages(sources, wrong) + check_facts(wrong)
    for it in wrong:
        print(it)
    print(f"{passed - len(wrong)} passed, {len(wrong)} failed")
    return 1 if wrong else 0


if __name__ == "__main__":
    sys.exit(main())
