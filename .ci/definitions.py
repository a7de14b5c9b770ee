"""The definitions and the laws of all crates, as the scripts of the gate read them: by their signs and words, as a
person does who looks a word up. Nothing is proved here."""

import collections
import os
import re

ROOT = os.path.dirname(os.path.dirname(os.path.abspath(__file__)))
CRATES = os.path.join(ROOT, "crates")

NAME = r"[A-Za-z_][A-Za-z_0-9']*"
TOKEN = re.compile(rf'"(?:[^"\\]|\\.)*"|{NAME}(?:-[A-Za-z_0-9]+)*|0x[0-9A-Fa-f]+|\d+|\.\w+|[-+*/<>=&|%^]+|[^\s\w]')
# (a full name stands behind @)
IS_NAME = re.compile(rf"(?:@[\w.]+\.)?{NAME}(?:-[A-Za-z_0-9]+)*\Z")
OPENING, CLOSING = "([{", ")]}"

# The one operator of ours; `do` stands for it too.
BIND = "◌>>=◌"

# A definition: its name, its crate and file there, and its lines.
Word = collections.namedtuple("Word", "name crate file lines")

# The cases of the library's types.
CASES = [
    {"[]", "∷"},
    {"None", "Some"},
    {"true", "false"},
    {"zero", "suc"},
    {"Ok", "Err"},
    {"Ordering.Less", "Ordering.Equal", "Ordering.Greater"},
]


def tokens(text):
    """The words and signs of a text without its comments."""
    return TOKEN.findall(re.sub(r"--.*", "", text))


def end_of(words, at):
    """The place of what closes the bracket that stands there."""
    depth = 0
    for place in range(at, len(words)):
        depth += (words[place] in OPENING) - (words[place] in CLOSING)
        if depth == 0:
            return place
    return len(words)


def apart(words, sign):
    """The parts of a text between the signs that stand in no brackets."""
    parts, depth = [[]], 0
    for word in words:
        depth += (word in OPENING) - (word in CLOSING)
        if depth == 0 and word == sign:
            parts.append([])
        else:
            parts[-1].append(word)
    return parts


def joined(parts, sign):
    """The parts with the sign between them."""
    return [word for number, part in enumerate(parts) for word in [sign] * (number > 0) + part]


def bare(words):
    """A text without brackets around all of it. Those of a tuple stay."""
    while len(words) > 1 and words[0] == "(" and end_of(words, 0) == len(words) - 1:
        if len(apart(words[1:-1], ",")) > 1:
            break
        words = words[1:-1]
    return words


def is_field(word):
    return bool(re.match(r"\.\w", word))


def pieces(words):
    """The head and the arguments of an application, each with the fields that are taken of it; none where signs stand
    between them."""
    out, at = [], 0
    binds = apart(words, ">>=")
    if len(binds) == 2:
        return [[BIND], *binds]
    while at < len(words):
        end = end_of(words, at) if words[at] in OPENING else at
        if words[at][0] in "-+*/<>=&|%^∷≡↔→×⊎λ,;:":
            return []
        out.append(words[at : end + 1])
        at = end + 1
        while at < len(words) and is_field(words[at]):
            out[-1] = out[-1] + [words[at]]
            at += 1
    return out


def binders(words):
    """The names that a text binds at its front, each with its type; what follows; and the sign behind them."""
    found, at = [], 0
    while at < len(words) and words[at] in "({":
        end = end_of(words, at)
        names, *types = apart(words[at + 1 : end], ":")
        if not types or not names or not all(IS_NAME.match(it) for it in names):
            break
        found += [(it, joined(types, ":")) for it in names]
        at = end + 1
    if found and at < len(words) and words[at] in "→×":
        return found, words[at + 1 :], words[at]
    return [], words, None


def case_of(full):
    """The name of a case, behind that of its type where the code declares it."""
    parts = full.split(".")
    return f"{parts[-3]}.{parts[-1]}" if parts[-2:-1] == ["TheVariants"] else parts[-1]


def read(path):
    with open(path, encoding="utf-8") as file:
        return file.read()


def files_in(crate, part, ending):
    """The files of a part of a crate, each with its place there."""
    top = os.path.join(CRATES, crate, part)
    for at, _, files in os.walk(top):
        for file in sorted(it for it in files if it.endswith(ending)):
            yield os.path.relpath(os.path.join(at, file), top), os.path.join(at, file)


def imported(text, keyword):
    """The words that a file brings in, by the name that it uses."""
    found = {}
    for base, listed in re.findall(rf"^(?:pub )?{keyword} Rattle\.([\w.]+?)\.\{{([^}}]*)\}}", text, re.M):
        for one in filter(None, (it.strip() for it in listed.split(","))):
            name, *alias = one.split(" as ")
            found[(alias or [name])[0].strip()] = base, name.strip()
    return found


class Definitions:
    """The definitions of all crates by their full names, and what a name stands for where it is used."""

    def __init__(self):
        self.words, self.files, self.imports, self.modules, self.passed_on = {}, {}, {}, {}, {}
        self.cases, self.fields_of, self.constants = [*CASES], {}, {}
        self.crates = sorted(os.listdir(CRATES))
        for crate in self.crates:
            for place, path in files_in(crate, "specs", ".antt"):
                self.read_file(crate, place[:-5].replace("/", "."), read(path))
            self.constants[crate] = {}
            for file, path in files_in(crate, "src", ".rt"):
                text = re.sub(r"//.*", "", read(path))
                self.read_types(crate, text)
                declared = f"{crate}.specs.declared.{file[:-3].replace('/', '.')}.TheConstants"
                self.constants[crate] |= {it: declared for it in re.findall(r"\bconst ([A-Z][A-Z_0-9]+):", text)}
        self.cases = [it for it in self.cases if it]
        self.uses = {name: self.uses_in(word) for name, word in self.words.items()}

    def read_file(self, crate, file, text):
        """Takes the definitions of one file."""
        names = self.files[crate, file] = {}
        self.imports[crate, file] = imported(text, "use")
        modules = re.findall(r"^use Rattle\.([\w.]+) as (\w+)$", text, re.M)
        self.modules[crate, file] = {alias: base for base, alias in modules}
        for base in re.findall(r"^pub use Rattle\.([\w.]+)$", text, re.M):
            self.passed_on[crate, base.rsplit(".", 1)[1]] = base.partition(".specs.")[::2]
        lines = None
        for line in text.split("\n"):
            head = re.match(rf"(?:(?:abbrev|unfoldable|opaque|pub|record|data) )+({NAME}|{BIND})(?=[\s:]|\Z)", line)
            if head and head[1] not in ("use", "mod"):
                lines = [line]
                names[head[1]] = f"{crate}.specs.{file}.{head[1]}"
                self.words[names[head[1]]] = Word(head[1], crate, file, lines)
            elif re.match(r"(pub )?(use|mod)\b", line):
                lines = None
            elif lines is not None and not line.startswith("--"):
                lines.append(line)
        for name in names.values():
            if re.match(r"(pub )?data\b", self.words[name].lines[0]):
                cases = {it[1] for it in map(re.compile(rf"  (?:pub )?({NAME})\b").match, self.words[name].lines) if it}
                self.cases.append(cases)

    def read_types(self, crate, text):
        """Takes the cases of the enums and the fields of the structs of one source file."""
        text = re.sub(r"#\[[^\]]*\]", "", text)
        for name, inner in re.findall(rf"\benum ({NAME})(?:<[^>]*>)? \{{(.*?)^\}}", text, re.M | re.S):
            self.cases.append({f"{name}.{it}" for it in re.findall(rf"^    ({NAME})\b", inner, re.M)})
        for name, inner in re.findall(rf"\bstruct ({NAME})(?:<[^>]*>)? \{{(.*?)^\}}", text, re.M | re.S):
            fields = re.findall(rf"^    (?:pub(?:\(crate\))? )?({NAME}): ([^\n]*?),?$", inner, re.M)
            self.fields_of[crate, name] = dict(fields)
        for name, inner in re.findall(rf"\bstruct ({NAME})\(([^)]*)\);", text):
            self.fields_of[crate, name] = {str(at): it for at, it in enumerate(inner.split(","))}

    def laws(self):
        """The laws of all crates: functions without parameters, each with where its clauses stand and what they say."""
        for crate in self.crates:
            for file, path in files_in(crate, "src", ".rt"):
                text = re.sub(r"/\*.*?\*/|//[^\n]*", "", read(path), flags=re.S)
                place = crate, f"src/{file}"
                self.files[place], self.imports[place] = {}, imported(text, "ghost use")
                for name in set(re.findall(r"\b[A-Z][A-Z_0-9]+\b", text)) & set(self.constants[crate]):
                    self.imports[place][name] = self.constants[crate][name], name
                clause = r"\s*ensures (?:\w+ )?\{[^{}]*\}"
                for law, clauses in re.findall(rf"pub fn (\w+)\(\)((?:{clause})+)(?!\s*requires)", text):
                    found = re.findall(r"ensures (?:\w+ )?\{([^{}]*)\}", clauses)
                    yield place, f"{crate}::{law}", [tokens(it) for it in found]

    def resolve(self, place, word, depth=0):
        """The full name of a word where a file uses it, or None."""
        if word.startswith("@"):
            return word[1:]
        place = self.file_at(place)
        if word in self.files.get(place, {}):
            return self.files[place][word]
        if depth > 12 or word not in self.imports.get(place, {}):
            return None
        base, name = self.imports[place][word]
        return self.resolve(base.partition(".specs.")[::2], name, depth + 1) or f"{base}.{name}"

    def file_at(self, place):
        """The crate and the file that stand for these, where a crate passes a file on."""
        while place not in self.files and place in self.passed_on:
            place = self.passed_on[place]
        return place

    def names_in(self, place, words):
        """The definitions, and the constants of the code, that stand in a text."""
        found = {self.resolve(place, it.lstrip(".")) for it in words if IS_NAME.match(it.lstrip("."))}
        found |= {self.resolve(place, BIND)} if {">>=", "do"} & set(words) else set()
        return {it for it in found if it and (it in self.words or ".TheConstants." in it)}

    def uses_in(self, word):
        return self.names_in((word.crate, word.file), self.tokens(word, word.lines))

    def tokens(self, word, lines):
        """The words and signs of lines of a definition, where names behind that of a module are full names."""
        modules, out = self.modules[word.crate, word.file], []
        for one in tokens("\n".join(lines)):
            base = modules.get(out[-1]) if out and is_field(one) else None
            names = self.files.get(self.file_at(base.partition(".specs.")[::2]), {}) if base else {}
            if base and (one[1:] in names or one[1].isupper()):
                out[-1] = "@" + names.get(one[1:], f"{base}{one}")
            else:
                out.append(one)
        return out

    def below(self, names):
        """The words on which these rest, with them."""
        seen, left = set(), list(names)
        while left:
            name = left.pop()
            if name not in seen:
                seen.add(name)
                left += self.uses.get(name, ())
        return seen

    def kind(self, name):
        """Whether a word is a type (`data`), a record with parameters (`relation`), or a `function`."""
        head, *rest = self.words[name].lines
        if re.match(r"(pub )?data\b", head):
            return "data"
        if re.match(rf"abbrev pub {NAME} : Type \d$", head) and not re.search("[≡↔≤<¬]", "".join(rest)):
            return "data"
        if re.match(r"(pub )?record\b", head):
            return "relation" if self.parameters(name) else "data"
        return "function"

    def parameters(self, name):
        """The names of a record's parameters."""
        words = self.tokens(self.words[name], self.words[name].lines)
        names, at = [], words.index(self.words[name].name) + 1
        while at < len(words) and words[at] in "({":
            end = end_of(words, at)
            names += apart(words[at + 1 : end], ":")[0]
            at = end + 1
        return names

    def fields(self, name):
        """The fields of a record, each with its type."""
        words = self.tokens(self.words[name], self.words[name].lines)
        out, depth = [], 0
        for at, word in enumerate(words):
            depth += (word in OPENING) - (word in CLOSING)
            if depth == 0 and word == "pub" and at > 0 and words[at + 2 : at + 3] == [":"]:
                out.append((words[at + 1], []))
            elif out:
                out[-1][1].append(word)
        return [(it, rest[2:]) for it, rest in out]

    def clauses(self, name):
        """The clauses of a function: the arguments at the left of each, and what stands at its right."""
        found = []
        for line in self.words[name].lines[1:]:
            if re.match(rf"{re.escape(self.words[name].name)}(?![\w'-])", line):
                found.append([line])
            elif found:
                found[-1].append(line)
        sides = [apart(self.tokens(self.words[name], lines), "=") for lines in found]
        return [(pieces(left[1:]), joined(right, "=")) for left, *right in sides]

    def given_by(self, name):
        """The type of what a function gives."""
        word = self.words[name]
        text = "\n".join(word.lines)
        head = tokens(re.split(rf"^{re.escape(word.name)}(?![\w'-])", text, maxsplit=1, flags=re.M)[0])
        return bare(apart(joined(apart(head, ":")[1:], ":"), "→")[-1])

    def fields_given(self, name):
        """The fields of what a function gives, where that is a record or a tuple, each with its type."""
        if self.kind(name) != "function":
            return {}
        given, word = self.given_by(name), self.words[name]
        parts = apart(given, "×")
        if len(parts) > 1:
            return {str(at): " ".join(it) for at, it in enumerate(parts)}
        full = self.resolve((word.crate, word.file), given[0]) if len(given) == 1 else None
        if full in self.words and self.kind(full) == "data" and "record" in self.words[full].lines[0]:
            return {it: " ".join(text) for it, text in self.fields(full)}
        return self.fields_of.get(((full or "").split(".")[0], given[0]), {}) if len(given) == 1 else {}

    def is_wrapper(self, name):
        """Whether each type of this name has a single field without a name."""
        found = [it for (_, of), it in self.fields_of.items() if of == name]
        return bool(found) and all(set(it) == {"0"} for it in found)
