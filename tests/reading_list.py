"""The reading list of the headline: the definitions that the clause `answered` of `apsp_service::top` rests on.

    tests/reading_list.py            prints it
    tests/reading_list.py --write    puts it into CONTRIBUTING.md
    tests/reading_list.py --check    says whether CONTRIBUTING.md has it

A definition stands behind those that it names, file by file. Definitions of the kit are not followed.
"""

import os
import re
import sys

TOP = os.path.dirname(os.path.dirname(os.path.abspath(__file__)))
PAGE = os.path.join(TOP, "CONTRIBUTING.md")
BEGIN, END = "<!-- reading list -->\n", "<!-- end of the reading list -->\n"
ROOT = ("apsp_service", "entry.rt", "top", "answered")

USE = re.compile(r"^(?:pub )?(?:ghost )?use Rattle\.([\w.]+?)(?:\.\{(.*)\}| as (\w+))?;?$", re.M)
NAME = re.compile(r"[A-Za-z_]\w*")
DEFINES = re.compile(r"(?:(?:abbrev|unfoldable|pub|record|data) )+([^\s:(){}]+)")


def imports(text):
    """What each name of a file stands for: a module and a name in it, or a module alone."""
    meanings = {}
    for module, names, alias in USE.findall(text):
        if alias:
            meanings[alias] = (module, None)
        for entry in filter(None, re.split(r",\s*", names)):
            name, _, local = entry.partition(" as ")
            meanings[local or name] = (module, name)
    return meanings


def words_of(text, known):
    """The names in a text, and the operators that are known."""
    operators = [name for name in known if "◌" in name and f" {name.strip('◌')} " in text]
    return NAME.findall(text) + operators


class Specs:
    """A file of definitions: the text of each, by name, in the order of the file."""

    def __init__(self, path):
        with open(path, encoding="utf-8") as file:
            text = file.read()
        self.meanings, self.texts = imports(text), {}
        name = None
        for line in text.split("\n"):
            found = DEFINES.match(line)
            name = found.group(1) if found else name
            if name and not line.startswith(("--", "infix")):
                self.texts[name] = self.texts.get(name, "") + line + "\n"


class List:
    def __init__(self):
        self.files, self.named = {}, {}

    def specs(self, module):
        """The path of a module's file below crates/, if this repository has it, and the file."""
        crate, *rest = module.split(".")
        path = os.path.join(crate, *rest) + ".antt"
        full = os.path.join(TOP, "crates", path)
        if path not in self.files and os.path.exists(full):
            self.files[path] = Specs(full)
        return (path, self.files[path]) if path in self.files else (None, None)

    def follow(self, text, meanings, path=None):
        """Enters what a text names, files that it leads to first."""
        found = words_of(text, [*meanings, *(self.files[path].texts if path else [])])
        for place, name in enumerate(found):
            if path and name in self.files[path].texts:
                self.enter(path, name)
            elif name in meanings:
                module, of = meanings[name]
                self.enter_named(module, of or (found[place + 1] if place + 1 < len(found) else ""))

    def enter_named(self, module, name):
        path, specs = self.specs(module)
        if specs and name in specs.texts:
            self.enter(path, name)
        elif ".declared." in module and module.split(".")[0] not in ("std", "core"):
            crate = module.split(".")[0]
            declared = module.split(".declared.")[1].split(".TheVariants")[0].split(".")[-1]
            self.named.setdefault(os.path.join(crate, "src"), set()).add(name if declared == "TheConstants" else declared)

    def enter(self, path, name):
        if name in self.named.setdefault(path, set()):
            return
        self.named[path].add(name)
        specs = self.files[path]
        self.follow(specs.texts[name], specs.meanings, path)

    def reading_order(self):
        """The files, each behind those that its listed definitions name."""
        done = []
        def visit(path):
            if path in done or path not in self.files:
                return
            text = "".join(self.files[path].texts[name] for name in self.files[path].texts if name in self.named[path])
            for name in NAME.findall(text):
                if name in self.files[path].meanings:
                    other = self.specs(self.files[path].meanings[name][0])[0]
                    if other and other != path and other in self.named:
                        visit(other)
            done.append(path)
        for path in list(self.named):
            visit(path)
        return done


def clause(crate, file, call, name):
    """The text of a clause of a public call, with what the file's names stand for."""
    with open(os.path.join(TOP, "crates", crate, "src", file), encoding="utf-8") as source:
        text = source.read()
    start = text.index(f"ensures {name} {{", text.index(f"pub fn {call}<"))
    depth = 0
    for end in range(text.index("{", start), len(text)):
        depth += {"{": 1, "}": -1}.get(text[end], 0)
        if depth == 0:
            return text[start:end], imports(text)
    raise ValueError(f"the clause {name} of {call} has no end")


def reading_list():
    reading = List()
    text, meanings = clause(*ROOT)
    reading.follow(text, meanings)
    order = reading.reading_order()
    count = sum(len(reading.named[path]) for path in order)
    lines = [f"{count} definitions in {len(order)} files. Of the sources they name these types and constants:\n"]
    for place in sorted(path for path in reading.named if path not in reading.files):
        lines.append(f"- `{place}`: " + ", ".join(f"`{name}`" for name in sorted(reading.named[place])))
    lines.append("")
    for number, path in enumerate(order, 1):
        names = [name for name in reading.files[path].texts if name in reading.named[path]]
        lines.append(f"{number}. `{path}`: " + ", ".join(f"`{name}`" for name in names))
    return "\n".join(lines) + "\n"


def main():
    mode = sys.argv[1] if len(sys.argv) > 1 else ""
    listed = reading_list()
    if mode not in ("--write", "--check"):
        print(listed, end="")
        return 0
    with open(PAGE, encoding="utf-8") as file:
        page = file.read()
    head, rest = page.split(BEGIN)
    new = head + BEGIN + listed + END + rest.split(END)[1]
    if mode == "--check":
        if new != page:
            print("CONTRIBUTING.md has another reading list: run tests/reading_list.py --write", file=sys.stderr)
        return int(new != page)
    with open(PAGE, "w", encoding="utf-8") as file:
        file.write(new)
    return 0


if __name__ == "__main__":
    sys.exit(main())
