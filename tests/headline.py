#!/usr/bin/env python3
"""The definitions that the headline cites, directly or through others: the list in docs/HEADLINE.md has each of them, and their lines.

    headline.py            compares the page with the sources
    headline.py --write    writes the page's list anew; the words of rows that stay are kept
    headline.py --names    prints every definition that is cited

It begins at the clause `headline` of `run` in crates/xr_run/src/top.rt and follows each name through the `use` lines of
the files in specs, and of the code where a type or a trait of the code is cited. Lines are those of the cited definitions
with the remarks above them, not those of whole files. The last line is 'N passed, M failed'.
"""
import os
import re
import sys

TOP = os.path.realpath(os.path.join(os.path.dirname(os.path.abspath(__file__)), ".."))
PAGE = os.path.join(TOP, "docs", "HEADLINE.md")
BEGIN, END = "| Crate | File | Lines | What it says |\n|---|---|---|---|\n", "\n\n"
WORD = re.compile(r"[^\W\d](?:[\w'-]*[\w'])?")


def read(path):
    with open(path, encoding="utf-8") as f:
        return f.read()


def imports(text):
    """The names that `use` lines bring: {name here: (module, name there)}, and the names of whole modules: {name: module}."""
    names, modules = {}, {}
    for module, braces, alias in re.findall(r"^\s*(?:ghost )?use ([\w.]+?)(?:\.\{(.*?)\}|(?: as (\w+)))?;?$", text, re.M):
        if braces:
            for it in re.split(r",(?![^(]*\))", braces):
                there, _, here = it.strip().partition(" as ")
                names[here or there] = module, there
        else:
            modules[alias or module.split(".")[-1]] = module
    return names, modules


def of_code(text):
    """The names that the `use` lines of code bring: {name here: (path, name there)}."""
    names = {}
    for path, braces, alias in re.findall(r"^(?:pub )?use ([\w:]+?)(?:::\{(.*?)\})?(?: as (\w+))?;", text, re.M | re.S):
        for it in (braces.split(",") if braces else [path.split("::")[-1]]):
            there, _, here = it.strip().partition(" as ")
            if there and there != "self":
                names[alias or here or there] = path if braces else path.rpartition("::")[0], there
    return names


class Definitions:
    """A file of specs: its definitions, each the lines from its remark to the next definition."""

    def __init__(self, path):
        self.text = read(path)
        self.names, self.modules = imports(self.text)
        self.parts, self.of = [], {}
        lines = self.text.split("\n")
        starts = [n for n, line in enumerate(lines) if re.match(r"(?:abbrev|unfoldable|opaque|pub) |(?:data|record) [A-Z]|mutual\b", line)]
        begins = [self.remark(lines, n) for n in starts]
        for k, n in enumerate(starts):
            to = begins[k + 1] if k + 1 < len(starts) else len(lines)
            body = lines[begins[k]:to]
            while body and (not body[-1].strip() or body[-1].startswith("--")):
                body.pop()
            # (a mutual part has several definitions)
            heads = re.findall(r"^ *(?:(?:abbrev|unfoldable|opaque|pub|data|record|mutual) +)+([^\s(){}]+)", "\n".join(lines[n:to]), re.M)
            made = re.findall(r"^ +(?:pub )?(\S+) :", "\n".join(lines[n + 1:to]), re.M) if re.search(r"^ *(?:pub )?data ", "\n".join(lines[n:to]), re.M) else []
            self.parts.append((heads[0], "\n".join(body)))
            for it in heads + made:
                self.of.setdefault(it, k)

    @staticmethod
    def remark(lines, n):
        """Where the remark above a line begins."""
        while n > 0 and lines[n - 1].startswith("--") and not lines[n - 1].startswith("-- ----"):
            n -= 1
        return n


class Code:
    """A file of code: the declarations of its types and traits, with the view that contracts have of a type."""

    def __init__(self, path):
        self.text = read(path)
        self.names, self.modules = imports(self.text)
        self.used = of_code(self.text)

    def declared(self, name):
        found = []
        for head in (rf"^pub(?:\(crate\))? (?:struct|enum|trait) {name}\b", rf"^pub (?:type|const) {name}\b", rf"^impl(?:<[^>]*>)? Model for {name}\b"):
            for it in re.finditer(head, self.text, re.M):
                rest = self.text[it.start():]
                end = re.search(r"^\}", rest, re.M) if rest.split("\n")[0].endswith("{") else re.search(r";|\}$", rest, re.M)
                above = self.text[:it.start()].split("\n")[:-1]
                remark = []
                while above and re.match(r"///|#\[", above[-1]):
                    remark.append(above.pop())
                found.append("\n".join(remark[::-1] + [rest[:end.end()]]))
        return found


class Closure:
    def __init__(self):
        self.files, self.cited, self.outside = {}, {}, set()

    def at(self, crate, part, module):
        path = f"crates/{crate}/{part}/{module.replace('.', '/')}" + (".antt" if part == "specs" else ".rt")
        if path not in self.files:
            whole = os.path.join(TOP, path)
            self.files[path] = (Definitions if part == "specs" else Code)(whole) if os.path.exists(whole) else None
        return path, self.files[path]

    def cite(self, module, name):
        """Notes a name of a module, and what it cites."""
        parts = module.split(".")
        if parts[0] != "Rattle" or not os.path.isdir(os.path.join(TOP, "crates", parts[1])):
            self.outside.add(".".join(it for it in parts if it not in ("TheVariants", "TheOpen", "TheViews")))
            return
        crate = parts[1]
        if parts[3] == "declared":
            rest = [it for it in parts[4:] if not it.startswith("The")]
            at, type_ = (rest, name) if "TheConstants" in parts else (rest[:-1], rest[-1])
            self.cite_type(crate, "/".join(at), type_)
            return
        path, file = self.at(crate, "specs", ".".join(parts[3:]))
        if file is None:
            sys.exit(f"there is no {path}, of which {name} is cited")
        if name not in file.of:
            sys.exit(f"{path} has no {name}")
        part = file.of[name]
        if part in self.cited.setdefault(path, {}):
            return
        self.cited[path][part] = file.parts[part][1].count("\n") + 1
        self.follow(file, file.parts[part][1])

    def follow(self, file, text):
        """What a text of a file of specs cites: names of the file itself, imported ones, and names of imported modules."""
        text = re.sub(r"--.*", "", text)
        own = isinstance(file, Definitions)
        words = set(WORD.findall(text))
        for name in [it for it in file.names if self.occurs(it, words, text)]:
            self.cite(*file.names[name])
        if own:
            path = next(p for p, f in self.files.items() if f is file)
            module = "Rattle." + path.split("/")[1] + ".specs." + path.split("/specs/")[1][:-5].replace("/", ".")
            for name in [it for it in file.of if self.occurs(it, words, text)]:
                self.cite(module, name)
        for alias, module in file.modules.items():
            for name in set(re.findall(rf"(?<![\w.]){alias}\.(\w+)", text)):
                self.cite(module, name)

    @staticmethod
    def occurs(name, words, text):
        if "◌" in name:
            return all(it in text for it in name.split("◌") if it)
        return name in words if WORD.fullmatch(name) else name in text

    def cite_type(self, crate, module, name):
        """A type of the code: its declaration, the types that stand in it, and its view."""
        path, file = self.at(crate, "src", module)
        if file is None:
            sys.exit(f"there is no {path}, of which {name} is cited")
        found = file.declared(name)
        if not found:
            sys.exit(f"{path} has no {name}")
        if name in self.cited.setdefault(path, {}):
            return
        self.cited[path][name] = sum(it.count("\n") + 1 for it in found)
        for text in found:
            plain = re.sub(r"//.*", "", text)
            for word in set(WORD.findall(plain)) - {name}:
                if file.declared(word):
                    self.cite_type(crate, module, word)
                elif word in file.used:
                    self.cite_used(crate, *file.used[word])
            if "ghost" in plain:
                self.follow(file, plain)

    def cite_used(self, crate, path, name):
        other = crate if path.split("::")[0] == "crate" else path.split("::")[0]
        folder = os.path.join(TOP, "crates", other, "src")
        if not os.path.isdir(folder):
            return
        for it in sorted(os.listdir(folder)):
            if it.endswith(".rt") and Code(os.path.join(folder, it)).declared(name):
                self.cite_type(other, it[:-3], name)
                return


def headline():
    closure = Closure()
    path, file = closure.at("xr_run", "src", "top")
    clause = re.search(r"^pub fn run<.*?^    ensures headline (\{.*?\})$", file.text, re.M | re.S)
    if not clause:
        sys.exit(f"{path} has no clause headline of run")
    closure.follow(file, clause.group(1))
    closure.cite_type("xr_outside", "outside", "Store")
    closure.cite_type("xr_outside", "outside", "Sink")
    closure.cite_type("xr_types", "text", "TextBytes")
    return closure


def rows_of(text):
    at = text.index(BEGIN) + len(BEGIN)
    table = text[at:text.index(END, at)]
    return at, table, {(a, b): c for a, b, c in re.findall(r"^\| `(\w+)` \| `([^`]+)` \| [^|]* \| (.*) \|$", table, re.M)}, re.findall(r"^\| `(\w+)` \| `([^`]+)`", table, re.M)


def main():
    closure = headline()
    asked = sys.argv[1:]
    if asked == ["--names"]:
        for path, parts in closure.cited.items():
            file = closure.files[path]
            print(path, *[file.parts[it][0] if isinstance(it, int) else it for it in sorted(parts, key=str)])
        return 0
    text = read(PAGE)
    at, table, says, order = rows_of(text)
    listed = [f"crates/{crate}/{name}" for crate, name in order]
    wanted = {path: sum(parts.values()) for path, parts in closure.cited.items()}
    paths = [it for it in listed if it in wanted] + sorted(set(wanted) - set(listed), key=lambda it: ("/src/" in it, it))
    made = []
    for path in paths:
        _, crate, name = path.split("/", 2)
        whole = read(os.path.join(TOP, path)).count("\n")
        words = says.get((crate, name), "") if path.endswith(".antt") else ", ".join(f"`{it}`" for it in sorted(closure.cited[path]))
        made.append(f"| `{crate}` | `{name}` | {wanted[path]} of {whole} | {words} |")
    total = f"Together {sum(len(it) for it in closure.cited.values())} definitions and types in {len(wanted)} files, {sum(wanted.values()):,} lines with their remarks."
    kit = ", ".join(f"`{it}`" for it in sorted(it.removeprefix("Rattle.") for it in closure.outside if ".declared." not in it))
    sentence = f"Of the kit they cite {kit}."
    new = text[:at] + "\n".join(made) + text[at + len(table):]
    new = re.sub(r"^Together \d+ definitions.*$", lambda _: total, new, flags=re.M)
    new = re.sub(r"^Of the kit they cite .*$", lambda _: sentence, new, flags=re.M)
    if asked == ["--write"]:
        with open(PAGE, "w", encoding="utf-8") as f:
            f.write(new)
        return 0
    wrong = [f"docs/HEADLINE.md has no row of {it}" for it in wanted if it not in listed]
    wrong += [f"docs/HEADLINE.md lists {it}, which the headline doesn't cite" for it in listed if it not in wanted]
    wrong += [f"docs/HEADLINE.md says nothing of {path}" for path in paths if path.endswith(".antt") and path in listed and not says.get(tuple(path.split('/', 2)[1:]))]
    wrong += [f"docs/HEADLINE.md: not {a!r}" for a in text.split("\n") if a not in new.split("\n")]
    for it in wrong:
        print(it)
    if wrong:
        print("tests/headline.py --write writes the list anew")
    print(f"{len(wanted)} passed, {len(wrong)} failed")
    return 1 if wrong else 0


if __name__ == "__main__":
    sys.exit(main())
