#!/usr/bin/env python3
"""What an auditor has to read, computed from the sources; docs/TRUST.md is held to it.

It begins at the contracts of the public calls (docs/CALLS.md) and at the demands, and follows every name that they use, name by name: through the
`use` lines to definitions in specs/, and to the structs and enums in src/. A form that it does not know, or a name that it cannot find, is an error.
The rows of docs/CALLS.md are held to it too: each has a public call, its statement, the theorem of one answer, and two edits that must fail.
A call for C stands in a library NAME and is exported by the crate NAME_c: the export has the same parameters, the same result and the same contract, and calls it.

tests/reading_list.py prints the list; with --write it writes the list into docs/TRUST.md.
"""
import glob
import os
import re
import sys

ROOT = os.path.dirname(os.path.dirname(os.path.abspath(__file__)))
TRUST, CALLS = "docs/TRUST.md", "docs/CALLS.md"
LIST = re.compile(r"<!-- reading list -->\n.*?<!-- end -->", re.S)
LEGEND = re.compile(r"<!-- signs -->\n(.*?)<!-- end -->", re.S)

# Where reading begins besides the public calls.
DEMANDS = [("demands", demand, demand) for demand in ("DemandOne", "DemandTwo", "DemandThree", "DemandThreeForC")] + [
    ("demands", "Explanations", "ExplanationsAgree"),
    ("demands", "Surveys", "SurveysAgree"),
    ("demands", "Admissions", "AdmissionsPass"),
    ("demands", "Rechecks", "RechecksAreSound"),
    ("demands", "Rechecks", "EveningsAreSound"),
    ("demands", "Rechecks", "HostRechecksAreSound"),
    ("demands", "GateLists", "GateListsAreOfSoundTables"),
    ("gate_lists", "Theorems", "GatesOpenForFrames"),
]

# What the language has of its own, what every contract may say, and the constructors of the kit.
WORDS = {"→", "×", "⊥", ":", "=", "Type", "Unit", "record", "data", "where", "pub", "abbrev", "unfoldable"}
RESULT = "result"
MOMENTS = {".now", ".old", ".new"}
CONSTRUCTORS = {"zero", "suc", "[]", "∷", "true", "false", "Some", "None", "Ok", "Err"}
KIT = ("std",)
NUMBERS = {"u8", "u16", "u32", "u64", "usize", "i64", "bool", "Option", "Result"}

NAME = r"[^\s(){}.;,]+"
TOKEN = re.compile(rf"(?<![^\s()])\.{NAME}|{NAME}(?:\.{NAME})*|[(){{}}.;,]")
RUST = re.compile(r"\w+|->|::|\"[^\"]*\"|#\[\w+(?:\([\w, ]*\))?\]|[^\s\w]")
PLAIN = re.compile(rf"{NAME}$")


class Unknown(Exception):
    """A form or a name of the sources that this program cannot follow."""


def content(path):
    with open(os.path.join(ROOT, path), encoding="utf-8") as file:
        return file.read()


def tokens(text):
    return TOKEN.findall(re.sub(r"(?m)(?<!\S)--.*$", "", text))


def marks_of(name):
    """The mark at the end of a name of what another became: ' or ''."""
    return re.findall(r"(?<=[\w'])'+$", name)


def counts_as_line(line):
    return line.strip() and not line.startswith(("use ", "ghost use "))


def closing(toks, i, where):
    """The position of the bracket that closes the one at i."""
    depth = 0
    for j in range(i, len(toks)):
        depth += (toks[j] in "({") - (toks[j] in ")}")
        if depth == 0:
            return j
    raise Unknown(f"{where}: a bracket is not closed")


class Definition:
    """A definition of specs/: its text, the comment that it is read with, and the fields or constructors that it declares. An operator, written
    ◌name◌, stands between what it takes."""

    def __init__(self, written, kind, comment):
        operator = re.fullmatch(r"◌(.+)◌", written)
        self.name, self.written, self.operator = operator.group(1) if operator else written, written, bool(operator)
        self.kind, self.comment, self.lines, self.members = kind, comment, [], []

    def clause(self, line):
        """Whether a line begins a clause of this function."""
        return self.kind == "function" and line.split()[int(self.operator):][:1] == [self.name]


class Uses:
    """The names that `use` lines bring into a file, and the shorter names that stand for a module."""

    def __init__(self, path, crate, lines):
        self.path, self.names, self.short = path, {}, {}
        for line in lines:
            self.add(line.rstrip(";").strip(), crate)

    def add(self, line, crate):
        form = re.fullmatch(r"(?:ghost )?use ([^\s{}]+?)(?:\.\{([^{}]*)\}| as ([\w-]+))", line)
        if not form:
            raise Unknown(f"{self.path}: a use that is not known: {line}")
        module, names, short = form.groups()
        target = self.target(module, crate, line)
        if short:
            if target[0] == "kit":
                raise Unknown(f"{self.path}: a use that is not known: {line}")
            self.short[short] = target
        for name in names.split(",") if names else []:
            name = name.strip()
            if not PLAIN.match(name) or " " in name:
                raise Unknown(f"{self.path}: a use that is not known: {line}")
            operator = re.fullmatch(r"◌(.+)◌", name)
            if target[0] == "kit" and "◌" in (operator.group(1) if operator else name):
                raise Unknown(f"{self.path}: an operator that is not known: {name}")
            self.names[operator.group(1) if operator else name] = target + (operator.group(1) if operator else name,)

    def target(self, module, crate, line):
        """The kit; a module of specs/; or a struct or enum of src/, by itself or for its variants."""
        form = re.fullmatch(r"Rattle\.(\w+)\.specs\.(.+)", module)
        if not form:
            raise Unknown(f"{self.path}: a use that is not known: {line}")
        if form.group(1) in KIT:
            return ("kit", module)
        parts = form.group(2).split(".")
        if parts[0] != "declared":
            if len(parts) != 1:
                raise Unknown(f"{self.path}: a use that is not known: {line}")
            return ("spec", form.group(1), parts[0])
        parts = parts[1:]
        kind = "type"
        if parts[-1] == "TheVariants":
            kind, parts = "variant", parts[:-1]
        return (kind, form.group(1), "/".join(parts[:-1]) or "lib", parts[-1])


class Spec:
    """A file of specs/: its heading, its use lines and its definitions, in order."""

    def __init__(self, crate, module):
        self.crate, self.module, self.path = crate, module, f"crates/{crate}/specs/{module}.antt"
        if not os.path.isfile(os.path.join(ROOT, self.path)):
            raise Unknown(f"no {self.path}")
        lines = content(self.path).splitlines()
        self.whole = sum(1 for line in lines if counts_as_line(line))
        self.heading = 0
        while self.heading < len(lines) and lines[self.heading].startswith("--"):
            self.heading += 1
        self.definitions, uses, comment, fresh, current = {}, [], [], False, None
        for n, line in enumerate(lines[self.heading:], self.heading):
            start = re.match(r"(?:(?:abbrev|unfoldable|pub) )*(?:(record|data) )?(\S+)(?= |$)", line)
            if not line.strip():
                continue
            if line.startswith("use "):
                uses.append(line)
            elif re.fullmatch(r"infix[lr]? \d+ ◌\S+◌", line):
                continue
            elif line.startswith("--"):
                comment, fresh = (comment if fresh else []) + [n], True
            elif line.startswith((" ", "}")):
                if not current:
                    raise Unknown(f"{self.path}:{n + 1}: not in a definition")
                current.lines.append((n, line))
            elif current and current.clause(line):
                if fresh:
                    raise Unknown(f"{self.path}:{n + 1}: a comment inside a definition")
                current.lines.append((n, line))
            elif start and (start.group(1) or re.match(r" :(?: |$)", line[start.end():])):
                # A definition that has no comment of its own is read with the one above it.
                current = Definition(start.group(2), start.group(1) or "function", comment)
                current.lines.append((n, line))
                if current.name in self.definitions:
                    raise Unknown(f"{self.path}:{n + 1}: {current.name} twice")
                self.definitions[current.name], fresh = current, False
            else:
                raise Unknown(f"{self.path}:{n + 1}: a form that is not known: {line}")
        self.uses = Uses(self.path, crate, uses)
        self.constructors = {}
        for definition in self.definitions.values():
            if definition.kind != "function":
                for _, line in definition.lines[1:]:
                    member = re.match(rf"  (?:pub )?({NAME}) :(?: |$)", line)
                    if member:
                        definition.members.append(member.group(1))
                        if definition.kind == "data":
                            self.constructors[member.group(1)] = definition.name


class Source:
    """A file of src/: its structs and enums, and its functions for others."""

    def __init__(self, crate, module):
        self.crate, self.module, self.path = crate, module, f"crates/{crate}/src/{module}.rt"
        if not os.path.isfile(os.path.join(ROOT, self.path)):
            raise Unknown(f"no {self.path}")
        self.lines = content(self.path).splitlines()
        self.whole = sum(1 for line in self.lines if counts_as_line(line))
        self.types, self.functions, self.imported, self.unread = {}, {}, {}, {}
        for n, line in enumerate(self.lines):
            declared = re.match(r"pub (struct|enum) (\w+)(?:<.*>)? \{$", line)
            function = re.match(r"pub (?:(?:const|unsafe|extern \"C\") )*fn (\w+)", line)
            if declared:
                end = self.lines.index("}", n)
                body = [line.strip() for line in self.lines[n + 1:end] if not line.strip().startswith("//")]
                member = r"(\w+)(?:\(([\w:, ]*)\)| = \d+)?," if declared.group(1) == "enum" else r"(?:pub )?(\w+): (\[\w+; [\w:]+\]|[\w:]+(?:<[\w:, <>]+>)?),"
                if not all(re.fullmatch(member, line) for line in body):
                    # A type of inner functions, with lifetimes or ghost fields, say: an error only where a reader comes to it.
                    self.unread[declared.group(2)] = n + 1
                    continue
                parts = [re.fullmatch(member, line).groups() for line in body]
                members, named = [name for name, _ in parts], re.findall(r"[\w:]+", re.sub(r"; [\w:]+\]", "", " ".join(kind or "" for _, kind in parts)))
                self.types[declared.group(2)] = (self.above(n) + list(range(n, end + 1)), members, named)
            elif re.match(r"pub (enum|type|union) ", line):
                raise Unknown(f"{self.path}:{n + 1}: a form that is not known: {line}")
            elif function:
                self.functions[function.group(1)] = n
            elif re.match(r"pub\b(?!\().*\bfn\b", line):
                raise Unknown(f"{self.path}:{n + 1}: a form that is not known: {line}")
        for first, within, names in re.findall(r"^use (\w+)((?:::\w+)*)::([A-Z]\w*|\{[^{}]*\});", "\n".join(self.lines), re.M):
            for name in re.findall(r"[A-Z]\w*", names):
                self.imported[name] = (crate if first == "crate" else first, within[2:].replace("::", "/") or "lib")

    def above(self, n):
        """The comment and the attributes right above a line."""
        start = n
        while start and re.match(r"\s*(//|#\[)", self.lines[start - 1]):
            start -= 1
        # Why a form is kept, and how a call is proved, say nothing of what it promises.
        return [it for it in range(start, n) if not self.lines[it].lstrip().startswith(("// Kept: ", "#[tactic("))]

    def comment(self, name):
        said = [self.lines[n].strip().lstrip("/").strip() for n in self.above(self.functions[name]) if self.lines[n].strip().startswith("//")]
        return " ".join(said)

    def head(self, name):
        """The lines from a function's comment to its last clause, and that text without the comment."""
        first = self.functions[name]
        last = next((n for n in range(first, len(self.lines)) if self.lines[n] == "{"), None)
        if last is None:
            raise Unknown(f"{self.path}: {name} has no body that is known")
        return self.above(first) + list(range(first, last)), "\n".join(self.lines[first:last])

    def type_of(self, name):
        """Where a type that this file names is declared."""
        if name in self.types:
            return (self.crate, self.module, name)
        if name in self.imported:
            return self.imported[name] + (name,)
        if "::" in name:
            parts = name.split("::")
            return (parts[0], "/".join(parts[1:-1]) or "lib", parts[-1])
        raise Unknown(f"{self.path}: no type {name}")


class Reading:
    """What is reached, and the signs that it is written with."""

    def __init__(self):
        self.specs, self.sources, self.reached, self.due, self.edges, self.here = {}, {}, set(), [], set(), None
        self.signs, self.rust_signs, self.fields, self.literals = {}, {}, {}, {}
        self.order = [line.split(":")[0].split(" ")[0] for line in content("crates.txt").splitlines() if line and not line.startswith("#")]
        self.libraries = [crate for crate in self.order if os.path.isdir(os.path.join(ROOT, f"crates/{crate}/specs"))]
        self.calls, self.statements = self.public_calls(), {}
        for call in self.calls:
            self.reach(("call",) + call)
        for demand in DEMANDS:
            self.reach(("definition",) + demand)
        while self.due:
            self.here = self.due.pop()
            getattr(self, "follow_" + self.here[0])(*self.here[1:])
        declared = [set(self.members(item)) for item in self.reached]
        for field, path in self.fields.items():
            if not any(field in members for members in declared):
                raise Unknown(f"{path}: no field {field} in what is read")
        for fields, path in self.literals.items():
            if set(fields) not in declared:
                raise Unknown(f"{path}: no record with just the fields {', '.join(fields)} in what is read")

    def spec(self, crate, module):
        if (crate, module) not in self.specs:
            self.specs[crate, module] = Spec(crate, module)
        return self.specs[crate, module]

    def source(self, crate, module):
        if (crate, module) not in self.sources:
            self.sources[crate, module] = Source(crate, module)
        return self.sources[crate, module]

    def reach(self, item):
        if self.here:
            self.edges.add((self.here, item))
        if item not in self.reached:
            self.reached.add(item)
            self.due.append(item)

    def members(self, item):
        kind, crate, module, name = item
        if kind == "definition":
            return self.spec(crate, module).definitions[name].members
        return self.source(crate, module).types[name][1] if kind == "type" else []

    def public_calls(self):
        """The functions of the libraries that others may call and that are not marked as internal. A method of a type is none."""
        found = []
        for crate in self.libraries:
            for path in sorted(glob.glob(os.path.join(ROOT, f"crates/{crate}/src/**/*.rt"), recursive=True)):
                module = os.path.relpath(path, os.path.join(ROOT, f"crates/{crate}/src"))[:-3]
                source = self.source(crate, module)
                found += [(crate, module, name) for name in source.functions if not source.comment(name).startswith("Internal")]
        return found

    # Names

    def sign(self, sign, path):
        self.signs.setdefault(sign, path)
        for mark in marks_of(sign):
            self.signs.setdefault(mark, path)

    def resolve(self, token, bound, uses, own, path):
        """Follows one name of a definition or of a contract."""
        if token.startswith("."):
            self.sign(".field", path)
            self.fields.setdefault(token[1:], path)
        elif re.fullmatch(r"\d+|0x[0-9A-F]+", token):
            pass
        elif "." in token and PLAIN.match(token.split(".")[0]) and token != ".":
            head, *rest = token.split(".")
            if head in bound:
                self.sign(".field", path)
                for field in rest:
                    self.fields.setdefault(field, path)
                return
            if head not in uses.short or len(rest) != 1:
                raise Unknown(f"{path}: no name {token}")
            self.sign("short.Name", path)
            self.follow_target(uses.short[head] + (rest[0],), path)
        elif token in bound:
            for mark in marks_of(token):
                self.sign(mark, path)
        elif own and token in own.definitions:
            self.reach(("definition", own.crate, own.module, token))
        elif own and token in own.constructors:
            self.reach(("definition", own.crate, own.module, own.constructors[token]))
        elif token in uses.names:
            self.follow_target(uses.names[token], path)
        elif token in WORDS:
            self.sign(token, path)
        else:
            raise Unknown(f"{path}: no name {token}")

    def follow_target(self, target, path):
        kind, *where = target
        if kind == "kit":
            self.sign(where[1], path)
        elif kind == "spec":
            crate, module, name = where
            spec = self.spec(crate, module)
            name = spec.constructors.get(name, name)
            if name not in spec.definitions:
                raise Unknown(f"{path}: no {name} in {spec.path}")
            self.reach(("definition", crate, module, name))
        else:
            crate, module, declared, name = where
            types = self.source(crate, module).types
            if declared not in types or (kind == "variant" and name not in types[declared][1]) or (kind == "type" and name != declared):
                raise Unknown(f"{path}: no {declared} with {name} in crates/{crate}/src/{module}.rt")
            self.reach(("type", crate, module, declared))

    def is_constructor(self, token, uses, own, path):
        """Whether a name on the left of a clause is a constructor. If not, it is bound there."""
        if "." in token or token in own.constructors or token in CONSTRUCTORS:
            return True
        target = uses.names.get(token)
        if target and target[0] == "kit":
            raise Unknown(f"{path}: {token} on the left of a clause")
        return bool(target) and (target[0] == "variant" or (target[0] == "spec" and token in self.spec(*target[1:3]).constructors))

    def walk(self, toks, bound, uses, own, path):
        """Follows the names of a term. Gives the names that it binds up to its end."""
        bound, i = set(bound), 0
        while i < len(toks):
            token = toks[i]
            if token in ("(", "{"):
                end = closing(toks, i, path)
                inner = toks[i + 1:end]
                names = inner[:inner.index(":")] if ":" in inner else []
                self.sign(token, path)
                if token == "{" and i and toks[i - 1] == "record":
                    self.record_literal(inner, bound, uses, own, path)
                elif names and all(PLAIN.match(name) for name in names):
                    if end + 1 == len(toks) or toks[end + 1] not in ("→", "×", "(", "{", ".", ":"):
                        raise Unknown(f"{path}: a form that is not known: ({' '.join(inner)})")
                    self.sign(":", path)
                    self.walk(inner[len(names) + 1:], bound, uses, own, path)
                    bound.update(names)
                else:
                    self.walk(inner, bound, uses, own, path)
                i = end
            elif token == "λ":
                self.sign("λ", path)
                while toks[i + 1] not in (".", "("):
                    bound.add(toks[i + 1])
                    i += 1
            elif token != ".":
                self.resolve(token, bound, uses, own, path)
            i += 1
        return bound

    def record_literal(self, inner, bound, uses, own, path):
        self.sign("=", path)
        fields = []
        while inner:
            end, depth = len(inner), 0
            for n, token in enumerate(inner):
                depth += (token in "({") - (token in ")}")
                if token == ";" and depth == 0:
                    self.sign(";", path)
                    end = n
                    break
            if len(inner) < 3 or inner[1] != "=":
                raise Unknown(f"{path}: a record that is not known")
            fields.append(inner[0])
            self.walk(inner[2:end], bound, uses, own, path)
            inner = inner[end + 1:]
        self.literals.setdefault(tuple(fields), path)

    # What is reached

    def follow_definition(self, crate, module, name):
        spec = self.spec(crate, module)
        if name not in spec.definitions:
            raise Unknown(f"no {name} in {spec.path}")
        definition, path = spec.definitions[name], f"{spec.path}: {name}"
        if definition.kind == "function":
            self.follow_function(spec, definition, path)
        else:
            self.follow_members(spec, definition, path)

    def marks(self, toks, name, path):
        """The words before a definition's name. Gives what follows it."""
        at = toks.index(name)
        for word in toks[:at]:
            if word not in WORDS:
                raise Unknown(f"{path}: a form that is not known: {word}")
            self.sign(word, path)
        return toks[at + 1:]

    def follow_function(self, spec, definition, path):
        parts = []
        for _, line in definition.lines:
            if not line.startswith((" ", "}")):
                parts.append("")
            parts[-1] += line + "\n"
        signature, clauses = self.marks(tokens(parts[0]), definition.written, path), parts[1:]
        if signature[0] != ":" or not clauses:
            raise Unknown(f"{path}: a form that is not known")
        self.sign(":", path)
        self.walk(signature[1:], (), spec.uses, spec, path)
        for clause in clauses:
            toks = tokens(clause)
            if "=" not in toks or "{" in toks[:toks.index("=")]:
                raise Unknown(f"{path}: a clause that is not known")
            left, right = toks[:toks.index("=")], toks[toks.index("=") + 1:]
            left.remove(definition.name)
            self.sign("=", path)
            bound = set()
            for token in left:
                if token in "()":
                    self.sign("(", path)
                elif self.is_constructor(token, spec.uses, spec, path):
                    self.resolve(token, (), spec.uses, spec, path)
                else:
                    bound.add(token)
            self.walk(right, bound, spec.uses, spec, path)

    def follow_members(self, spec, definition, path):
        """A record or a data type: each field may name those before it."""
        parts, head = [], True
        for _, line in definition.lines:
            if line.strip().startswith("--"):
                continue
            if not parts or not head and re.match(rf"  (?:pub )?{NAME} :(?: |$)", line):
                parts.append("")
            elif not head and not line.startswith("    "):
                raise Unknown(f"{path}: a form that is not known: {line}")
            parts[-1] += line + "\n"
            head = head and not line.rstrip().endswith(" where")
        first = self.marks(tokens(parts[0]), definition.written, path)
        if head or first[-1] != "where":
            raise Unknown(f"{path}: a form that is not known")
        self.sign("where", path)
        bound = self.walk(first[:-1], (), spec.uses, spec, path)
        for part, name in zip(parts[1:], definition.members, strict=True):
            rest = self.marks(tokens(part), name, path)
            self.sign(":", path)
            self.walk(rest[1:], bound, spec.uses, spec, path)
            if definition.kind == "record":
                bound.add(name)

    def rust(self, text, path):
        for token in RUST.findall(text):
            if not re.match(r"\w", token) or token in NUMBERS | {"mut", "fn", "struct", "enum", "extern", "ensures"}:
                self.rust_signs.setdefault(token, path)

    def follow_type(self, crate, module, name):
        source = self.source(crate, module)
        if name in source.unread:
            raise Unknown(f"{source.path}:{source.unread[name]}: a form that is not known: {name}")
        if name not in source.types:
            raise Unknown(f"no {name} in {source.path}")
        lines, _, named = source.types[name]
        self.rust("\n".join(source.lines[n] for n in lines if not source.lines[n].strip().startswith("//")), f"{source.path}: {name}")
        for other in named:
            if other not in NUMBERS:
                self.reach(("type",) + source.type_of(other))

    def at_a_moment(self, token, parameters, path):
        """A word of a contract, where a lent parameter is told as it is, as it was or as it becomes: without that moment."""
        head, *rest = token.split(".")
        if head == RESULT:
            self.sign(RESULT, path)
        if head not in parameters or not rest or f".{rest[0]}" not in MOMENTS:
            return token
        self.sign(f".{rest[0]}", path)
        return ".".join([head] + rest[1:])

    def follow_call(self, crate, module, name):
        source = self.source(crate, module)
        path = f"{source.path}: {name}"
        lines, text = source.head(name)
        clauses = list(re.finditer(r"^    (\w+) \{(.*?)\}$", text, re.M | re.S))
        signature = text[:clauses[0].start()] if clauses else text
        form = re.fullmatch(r"\s*pub (?:\w+ (?:\"C\" )?)*fn \w+\((.*)\)(?: -> (.+?))?\s*", signature, re.S)
        rest = text[len(signature):]
        for clause in clauses:
            rest = rest.replace(clause.group(0), "", 1)
        if not form or rest.strip() or {clause.group(1) for clause in clauses} != {"ensures"}:
            raise Unknown(f"{path}: a public call has a signature and says what it ensures, and nothing else")
        attributes = [source.lines[n] for n in lines if source.lines[n].strip().startswith("#[")]
        self.rust("\n".join(attributes) + signature + " ensures { }", path)
        parameters = [parameter.strip() for parameter in form.group(1).split(",") if parameter.strip()]
        for kind in [parameter.split(":", 1)[1] for parameter in parameters] + [form.group(2) or ""]:
            for other in re.findall(r"[\w:]+", kind):
                if other not in NUMBERS | {"mut"}:
                    self.reach(("type",) + source.type_of(other))
        uses = Uses(source.path, crate, [line for line in source.lines if line.startswith("ghost use ")])
        bound = {parameter.split(":")[0] for parameter in parameters}
        self.statements[crate, module, name] = set()
        for clause in clauses:
            toks = [self.at_a_moment(token.strip("«»"), bound, path) for token in tokens(clause.group(2))]
            for token in toks:
                if token in uses.names and uses.names[token][0] == "spec":
                    self.statements[crate, module, name].add(uses.names[token][1:])
            self.walk(toks, bound | {RESULT}, uses, None, path)

    # The list

    def files(self):
        """For each file in the order of reading: which it is, what is read in it, how many lines that is, and how many the file has."""
        rows = []
        for crate in self.libraries:
            rows += self.source_rows(crate, "type")
            modules = {item[2] for item in self.reached if item[:2] == ("definition", crate)}
            order = re.findall(r"(?m)^pub mod (\w+)$", content(f"crates/{crate}/specs/Lib.antt"))
            if modules - set(order):
                raise Unknown(f"crates/{crate}/specs/Lib.antt does not name {', '.join(sorted(modules - set(order)))}")
            for module in sorted(modules, key=order.index):
                spec = self.spec(crate, module)
                names = [name for name in spec.definitions if ("definition", crate, module, name) in self.reached]
                left = [name for name in spec.definitions if name not in names]
                lines = set(range(spec.heading))
                for name in names:
                    lines |= set(spec.definitions[name].comment) | {n for n, _ in spec.definitions[name].lines}
                told = "all" if not left else f"all but {listed(left)}" if len(left) < len(names) else listed(names)
                rows.append((("definition", crate, module), spec.path, told, len(lines), spec.whole))
            rows += self.source_rows(crate, "call")
        place = {row[0]: n for n, row in enumerate(rows)}
        for reader, read in sorted(self.edges):
            if place[reader[:3]] < place[read[:3]]:
                raise Unknown(f"{reader[3]} of {reader[1]} comes before {read[3]} of {read[1]}, which it uses: no order of reading")
        return rows

    def source_rows(self, crate, kind):
        rows = []
        for module in sorted({item[2] for item in self.reached if item[:2] == (kind, crate)}, key=lambda module: (module != "lib", module)):
            source = self.source(crate, module)
            names = [name for name in (source.types if kind == "type" else source.functions) if (kind, crate, module, name) in self.reached]
            lines = [n for name in names for n in (source.types[name] if kind == "type" else source.head(name))[0]]
            rows.append(((kind, crate, module), source.path, f"{kind}{'s' if len(names) > 1 else ''} {listed(names)}", len(lines), source.whole))
        return rows

    def table(self):
        rows = [row[1:] for row in self.files()]
        specs = [row for row in rows if "/specs/" in row[0]]
        code = [row for row in rows if "/src/" in row[0]]
        sources = {row[0] for row in code}
        counts = {kind: sum(1 for item in self.reached if item[0] == kind) for kind in ("definition", "type", "call")}
        lines = [
            f"{sum(row[2] for row in rows):,} lines. {counts['definition']} definitions, in {sum(row[2] for row in specs):,} of the "
            f"{sum(row[3] for row in specs):,} lines of {len(specs)} files of specs/.",
            f"{counts['type']} types and the heads of {counts['call']} public calls, in {sum(row[2] for row in code):,} lines of {len(sources)} files of src/.",
            "",
            "| file | what is read | lines | lines of the file |",
            "| --- | --- | --- | --- |",
        ]
        return lines + [f"| {path} | {told} | {count} | {whole} |" for path, told, count, whole in rows]


def listed(names):
    return ", ".join(f"`{name}`" for name in names)


def block(reading):
    return "\n".join(["<!-- reading list -->"] + reading.table() + ["<!-- end -->"])


def legend_signs(page):
    """The signs that the legend of docs/TRUST.md explains: those in the first column of its table."""
    legend = LEGEND.search(page)
    if not legend:
        raise Unknown(f"{TRUST}: no legend between <!-- signs --> and <!-- end -->")
    signs, rust = set(), set()
    for row in re.findall(r"^\| (`.*?`) \| ", legend.group(1).replace(r"\|", "|"), re.M):
        for code in re.findall(r"`([^`]+)`", row):
            rust.update(RUST.findall(code))
            for token in tokens(code):
                signs.update(marks_of(token))
                if "." in token and token != ".":
                    last = "." + token.split(".")[-1] # A moment, a field, or the name of a case.
                    signs.add(last if last in MOMENTS else "short.Name" if last[1:2].isupper() else ".field")
                else:
                    signs.add(token)
    return signs, rust


def exports(reading):
    """What is wrong with the crates that export calls for C: each has those of its library, word for word, and calls them."""
    told = []
    close = lambda text: re.sub(r"\s+", "", text).replace(",)", ")")
    for crate in [line.split()[0] for line in content("crates.txt").splitlines() if line.split(":")[0].endswith(" staticlib")]:
        library, out = crate.removesuffix("_c"), Source(crate, "lib")
        calls = {name: module for of, module, name in reading.calls if of == library}
        told += [f"{out.path}: no export of {name} of crate {library}" for name in calls if name not in out.functions]
        told += [f"{out.path}: {name} is no public call of crate {library}" for name in out.functions if name not in calls]
        for name in [name for name in out.functions if name in calls]:
            source = reading.source(library, calls[name])
            (lines, head), (_, same) = out.head(name), source.head(name)
            if close(head) != close(same.replace("pub fn", 'pub extern "C" fn', 1)) or "#[unsafe(no_mangle)]" not in [out.lines[n] for n in lines]:
                told.append(f"{out.path}: the head of {name} is not that of {source.path}")
            first = lines[-1] + 1
            body = close("".join(out.lines[first:out.lines.index("}", first) + 1]))
            parameters = re.findall(r"(\w+): ", head[:head.index(")")])
            path = "::".join([library] + ([] if calls[name] == "lib" else calls[name].split("/")) + [name])
            if body != close(f"{{{path}({', '.join(parameters)})}}"):
                told.append(f"{out.path}: {name} does not hand what it is given to {path}")
            here, there = (Uses(it.path, it.crate, [line for line in it.lines if line.startswith("ghost use ")]).names for it in (out, source))
            told += [f"{out.path}: {word} is another one than in {source.path}" for word in set(re.findall(r"\w+", head)) if here.get(word) != there.get(word)]
            kinds = set(re.findall(r"\b[A-Z]\w*", head[:head.index("ensures")])) - {"C"}
            told += [f"{out.path}: {word} is another type than in {source.path}" for word in kinds if out.type_of(word) != source.type_of(word)]
    return told


def faults():
    """What is wrong with the pages, and how many definitions and signs were held against them."""
    try:
        reading, page = Reading(), content(TRUST)
        told = exports(reading)
        edits = {os.path.basename(path)[:-len(".edit")] for path in glob.glob(os.path.join(ROOT, "crates/*/*/*.edit"))}
        named = {}
        for row in re.findall(r"^\| `\w+::.*$", content(CALLS), re.M):
            form = re.fullmatch(r"\| `([\w:]+)` \| `([\w-]+)`, (\S+) \| `([\w-]+)`, (\S+) \| `(\w+)`, `(\w+)` \|", row)
            if not form:
                told.append(f"{CALLS}: a row that is not known: {row}")
                continue
            call, *statement_and_theorem, one, other = form.groups()
            named[call] = statement_and_theorem
            told += [f"{CALLS}: no edit {edit} in crates/*/must-fail or crates/*/refuted, which the row of {call} names" for edit in (one, other) if edit not in edits]
            if one == other:
                told.append(f"{CALLS}: the row of {call} names {one} twice")
        calls = {"::".join([crate] + ([] if module == "lib" else module.split("/")) + [name]): (crate, module, name) for crate, module, name in reading.calls}
        told += [f"{CALLS}: no row for the public call {call}" for call in calls if call not in named]
        told += [f"{CALLS}: a row for {call}, which is no public call" for call in named if call not in calls]
        for call, (statement, file, theorem, of) in named.items():
            spec = {(crate, module): f"crates/{crate}/specs/{module}.antt" for crate, module in reading.specs}
            if call in calls and (statement, file) not in {(name, spec.get((crate, module))) for crate, module, name in reading.statements[calls[call]]}:
                told.append(f"{CALLS}: the contract of {call} does not name {statement} of {file}")
            if (theorem, of) not in {(item[3], spec.get(item[1:3])) for item in reading.reached if item[0] == "definition"}:
                told.append(f"{CALLS}: {theorem} of {of} is in no demand")
        signs, rust = legend_signs(page)
        told += [f"{TRUST}: the legend does not have {sign} ({path})" for sign, path in sorted(reading.signs.items()) if sign not in signs]
        told += [f"{TRUST}: the legend does not have {sign} ({path})" for sign, path in sorted(reading.rust_signs.items()) if sign not in rust]
        old = LIST.search(page)
        if not old:
            told.append(f"{TRUST}: no reading list between <!-- reading list --> and <!-- end -->")
        else:
            have, want = old.group(0).split("\n"), block(reading).split("\n")
            told += [f"{TRUST}: not in the reading list: {line}" for line in want if line not in have]
            told += [f"{TRUST}: should not be in the reading list: {line}" for line in have if line not in want]
            if have != want:
                told.append(f"{TRUST}: the reading list is not what is computed; tests/reading_list.py --write writes it")
        return told, len(reading.reached), len(reading.signs) + len(reading.rust_signs)
    except Unknown as unknown:
        return [str(unknown)], 0, 0


def main():
    try:
        reading = Reading()
    except Unknown as unknown:
        sys.exit(f"{unknown}")
    if sys.argv[1:] == ["--write"]:
        page = content(TRUST)
        if not LIST.search(page):
            sys.exit(f"{TRUST}: no reading list between <!-- reading list --> and <!-- end -->")
        with open(os.path.join(ROOT, TRUST), "w", encoding="utf-8") as file:
            file.write(LIST.sub(lambda _: block(reading), page))
    elif sys.argv[1:]:
        sys.exit("usage: tests/reading_list.py [--write]")
    else:
        print("\n".join(reading.table()))
        print("\nSigns: " + "  ".join(sorted(reading.signs)) + "\nof declarations: " + "  ".join(sorted(reading.rust_signs)))


if __name__ == "__main__":
    main()
