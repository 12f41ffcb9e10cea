"""Reads definitions: what a file of specs/ defines, what a text imports, and which definitions it names."""
import pathlib
import re
import textwrap

ROOT = pathlib.Path(__file__).resolve().parent.parent
NAME = r"[A-Za-z_][\w-]*"
USE = re.compile(r"^\s*(?:pub )?(?:ghost )?use Rattle\.([\w.]+?)(?:\.\{([^}]*)\}| as ([\w-]+))?;?$", re.MULTILINE)
MARK = r"(?:pub |abbrev |unfoldable |data |record )"
HEAD = re.compile(rf"{MARK}*([^\s:({{]+)")
BINDERS = (
    rf"[({{]((?:{NAME}\s+)*{NAME}) :(?=\s)",
    r"λ ([^.]*)\.",
    rf"(?m)^\s+(?:pub )?({NAME}) :(?=\s)",
    rf"\blet ({NAME})\b",
)


def file_of(module):
    crate, *path = module.split(".")
    return ROOT / "crates" / crate / ("/".join(path) + ".antt")


def imported(text):
    """The names that a text imports, each with its module and its name there; and the names that it gives to modules."""
    names, modules = {}, {}
    for module, listed, alias in USE.findall(text):
        if not listed:
            modules[alias or module.rsplit(".", 1)[-1]] = module
        for part in filter(None, (it.strip() for it in listed.split(","))):
            there, _, here = part.partition(" as ")
            names[(here or there).strip("◌")] = (module, there.strip("◌"))
    return names, modules


def defined(text):
    """The definitions of a file, without comments."""
    found, name = {}, None
    for line in re.sub(r"^(?:\w+ )*mutual\n((?:  .*\n|\n)*)", lambda block: textwrap.dedent(block[1]), text, flags=re.MULTILINE).splitlines():
        if not line or line.lstrip().startswith("--") or line.startswith(("use ", "pub use ", "pub mod ", "infix", "unfolding")) or line == "}":
            continue
        if not line[0].isspace() and (begins := HEAD.match(line)):
            # An equation of an operator begins with what it takes, and so with no name of its own.
            if name is None or begins[1].strip("◌") in found or re.match(rf"{MARK}|\S+ :", line):
                name = begins[1].strip("◌")
        found.setdefault(name, []).append(line)
    return {name: "\n".join(lines) for name, lines in found.items()}


def constructors(definition):
    """The constructors of a type, where it is defined by them."""
    if re.match(r"(pub |abbrev |unfoldable )*data\b", definition):
        yield from re.findall(r"^\s+(?:pub )?([^\s:]+) :", definition, re.MULTILINE)


def words_of(text):
    """The words of a text that may name definitions, but for those that the text binds, and for fields and labels."""
    bound = {word for form in BINDERS for names in re.findall(form, text) for word in re.findall(NAME, names)}
    for line in text.splitlines():
        if line and not line[0].isspace() and not re.match(MARK, line) and " = " in line:
            bound |= set(re.findall(NAME, line.split(" = ")[0])[1:])
    text = re.sub(rf"(?<=[\w)\]])(?:\.(?:{NAME}|\d+))+", " ", text)
    text = re.sub(rf"(?m)(^\s+|[{{;]\s*){NAME} = ", r"\1", text)
    words = {word.strip("◌") for word in re.findall(r"[^\s(){}\[\];,.λ∣]+", text)}
    return words, bound


class Specs:
    """The definitions of all crates."""

    def __init__(self):
        self.files, self.types = {}, {}
        for path in ROOT.glob("crates/*/specs/**/*.antt"):
            text = path.read_text(encoding="utf-8")
            module = ".".join(path.relative_to(ROOT / "crates").with_suffix("").parts)
            self.files[module] = (defined(text), *imported(text))
            for name, definition in self.files[module][0].items():
                self.types.update({(module, it): name for it in constructors(definition)})

    def at(self, module, name):
        """The definition of this name in a module, or that of the type that it constructs; None where there is none."""
        if module in self.files and name in self.files[module][0]:
            return module, name
        return (module, self.types[module, name]) if (module, name) in self.types else None

    def named(self, text, names, modules, here=None):
        """The definitions that a text names, which may stand in the module `here`."""
        found = {self.at(modules[it], name) for it, name in re.findall(rf"({NAME})\.({NAME})", text) if it in modules}
        words, bound = words_of(text)
        for word in words:
            if word not in bound or (here, word) in self.types:
                found.add(self.at(*names.get(word, (here, word))))
        return found - {None}

    def reached(self, todo):
        """These definitions and all that they lead to."""
        seen, todo = set(), list(todo)
        while todo:
            if (it := todo.pop()) not in seen:
                seen.add(it)
                definitions, names, modules = self.files[it[0]]
                todo += self.named(definitions[it[1]], names, modules, it[0])
        return seen
