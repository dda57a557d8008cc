#!/usr/bin/env python3
"""Writes docs/TRUSTED.md: the definitions that a reader of the contracts has to believe.

    python3 docs/trusted.py                 writes the page
    python3 docs/trusted.py --check         says where the page differs, and ends with 1 then
    python3 docs/trusted.py --clause NAME   lists all definitions that a clause of the store's theorem reaches; `run: PART` is a part of `run`

It starts at the contracts of public functions and traits (crates/*/src), follows each name that they cite through the
imports to its definition (crates/*/specs), and goes on with the names that this definition cites. What a definition says is
the comment above it. Each definition that the store's theorem rests on has to have one of its own: where one has none, no page is
written, and the status is 1. Another one without a comment goes on with that of the definition before it, or of its part of the file.
"""

import collections
import difflib
import itertools
import os
import re
import sys

TOP = os.path.dirname(os.path.dirname(os.path.abspath(__file__)))
PAGE = os.path.join(TOP, "docs", "TRUSTED.md")
TOP_CALL = "run_je"  # the call whose contract is the store's theorem
TOP_RECORD = "IsRunOf"  # the record of what a run keeps; each of its fields is told of alone

# The questions that a reader has, in order, each with the crates whose definitions answer it. What the theorem takes of a
# crate that is not named here answers the question on the run.
QUESTIONS = [
    ("Store and answers", "je_order order_laws record_map store_model index_laws record_eval store_eval secondary cursor_je je_answers db_catalog"),
    ("Text", "je_io command_line script_text"),
    ("The disk and crashes", "je_disk mem_disk dir_disk"),
    ("The log's bytes", "je_bytes je_lsn log_entry log_file log_buffer log_replay log_trees log_meaning"),
    ("Trees and records", "node_core record_tree node_log tree_nodes db_tree tree_images dirty_nodes in_tree checkpointer db_names index_map"),
    ("Locks and transactions", "lock_mode waits_for lock_table lock_mgr txn_locks open_cursors active_txns standing_laws indexed_standings serial_replay sessions"),
    ("The run", "recovery_je crash_recovery txn_core txn_log txn_views ending_laws engine environment script_run je_program"),
]

HEAD = """\
# What has to be believed

The prover checks that the code meets its contracts. It does not check that the contracts say what a reader wants. This page
lists the definitions behind the contracts: those that a contract of a public function cites, or the invariant of a type with
public fields, and those that such a definition cites in turn. Bodies, private contracts, loop invariants, lemmas and proofs need not be believed; they are checked.

The first part is what the store's theorem, the contract of `{top}`, rests on. A reader who wants to know only what the
program promises can stop there. [THEOREM.md](THEOREM.md) explains its clauses.

The definitions of the standard library (lists, options, `filter`, `map`, numbers as bytes) and of the toolchain's crates are
not listed. `docs/trusted.py` makes this page from the comments in the sources.
"""

CLAUSES = """\
## Which definitions each clause of `{top}` reaches

How many a clause reaches, by those that it cites and all that these cite, and which of them no row above has reached. So the rows read from the first
on, each with what is new in it. `python3 docs/trusted.py --clause NAME` lists all that one clause reaches.

| Clause | Reaches | New here |
|---|---:|---|
"""

TAIL = """\
## Beside the definitions

- The types that contracts speak of are declared in the crates' sources, each with a line that says what it is. A type with
  private fields is seen in contracts as the value that its `impl Model` names: a list, a number, or the bytes that are left.
- The disk, source and sink in memory belong to the tests. Nothing that the program does rests on them: the theorem holds for
  every disk, source and sink that keeps the contract of its trait.
- The disk over a folder, and the source and sink over the system's input and output, are not observable: no contract can say
  what a file holds. That they do what the comments of their traits say is for readers and tests.
- `main` has no clauses. Before it opens anything it holds three open files, so that the log never gets the number of a
  standard stream that was closed.
- The toolchain, the C library, the system's file calls, and the statements of the toolchain's crates are trusted.
"""

NAME = re.compile(r"(?<![.\w'])[A-Za-z_][\w']*")  # behind a dot stands a field
IMPORT = re.compile(r"use Rattle\.(\w+)\.specs\.([\w.]+)\.\{([^}]*)\}")
DEFINITION = re.compile(r"^( *)(?:(?:abbrev|unfoldable|opaque) )*pub (?:(?:record|data) )?([A-Za-z_][\w']*|◌\S+◌)(?=[ :])")

FIELD = re.compile(r"^ *pub (\w+) :")
CLAUSE = re.compile(r"^ *ensures (\w+) \{")

Definition = collections.namedtuple("Definition", "crate module name file line says cites has_own fields")
Contract = collections.namedtuple("Contract", "name owner crate module cites bounds is_public clauses", defaults=[()])
Constant = collections.namedtuple("Constant", "crate name value says file")


def lines_of(path):
    with open(path, encoding="utf-8") as file:
        return file.read().split("\n")


def sentence(words):
    """Words as a sentence of a table's cell."""
    text = " ".join(words).strip().replace("|", "\\|")
    return text[:1].upper() + text[1:] + ("" if text.endswith((".", "?")) else ".") if text else ""


class Scope:
    """What the names in a file stand for: pairs of a crate's module and a name there."""

    def __init__(self, text, crate=None, module=None, own=()):
        self.meaning = {name: (crate, module, name) for name in own}
        for of, path, names in IMPORT.findall(text):
            for name in names.split(","):
                name, _, alias = name.strip().partition(" as ")
                self.meaning[alias.strip() or name] = (of, path, name)

    def cited(self, text):
        """The meanings of the names in a text, in the order of their first use."""
        names = NAME.findall(text)
        if re.search(r"\bdo$", text, re.M):
            names.append("◌>>=◌")
        return list(dict.fromkeys(self.meaning[name] for name in names if name in self.meaning))


def definitions_of(crate, file):
    """The definitions of a file of specs/, each with the comment above it."""
    module = os.path.basename(file)[: -len(".antt")]
    lines = lines_of(os.path.join(TOP, file))
    starts = [(n, m) for n, m in ((n, DEFINITION.match(line)) for n, line in enumerate(lines)) if m and is_outer(lines, n, m)]
    scope = Scope("\n".join(lines), crate, module, [m[2] for _, m in starts])
    before = sentence([lines[0][2:]]) if lines[0].startswith("-- ") else ""
    for at, (n, m) in enumerate(starts):
        own = comment_above(lines, n)
        says = sentence(own or heading_above(lines, n)) or before
        end = starts[at + 1][0] if at + 1 < len(starts) else len(lines)
        body = [line for line in lines[n:end] if not line.lstrip().startswith("--")]
        cites = [it for it in scope.cited("\n".join(body)) if it != (crate, module, m[2])]
        yield Definition(crate, module, m[2], file, n, says, cites, bool(own), parts_of(body, FIELD, scope))
        before = says


def parts_of(lines, begins, scope):
    """The parts of a text that each begin with such a line, by their names, and what each cites."""
    starts = [(n, m[1]) for n, m in ((n, begins.match(line)) for n, line in enumerate(lines)) if m]
    ends = [n for n, _ in starts[1:]] + [len(lines)]
    return tuple((name, scope.cited("\n".join(lines[n:end]))) for (n, name), end in zip(starts, ends))


def is_outer(lines, n, match):
    """Whether a line that looks like a definition is none of a record's fields."""
    if not match[1]:
        return True
    above = next((line for line in reversed(lines[:n]) if line.strip() and len(line) - len(line.lstrip()) < len(match[1])), "")
    return above.lstrip().startswith("module ")


def comment_above(lines, n):
    found = []
    while n and (lines[n - 1].lstrip().startswith("-- ") or re.match(r" *infix", lines[n - 1])):
        n -= 1
        text = lines[n].strip()
        if text.startswith("-- ---"):
            break
        if text.startswith("--"):
            found.insert(0, text[2:].strip())
    return found


def handed_on_by(crate, file):
    """The names of other modules that a file of specs/ gives as its own."""
    module = os.path.basename(file)[: -len(".antt")]
    for of, path, names in re.findall(r"^pub use Rattle\.(\w+)\.specs\.([\w.]+)\.\{([^}]*)\}", "\n".join(lines_of(os.path.join(TOP, file))), re.M):
        for name in names.split(","):
            yield (crate, module, name.strip()), (of, path, name.strip())


def heading_above(lines, n):
    """The heading of a part of the file, where a definition without a comment is the first behind it."""
    above = "\n".join(lines[max(n - 2, 0):n]).strip()
    return [above.lstrip("- ")] if above.startswith("-- ---") and "\n" not in above else []


def contracts_of(crate, file, is_public_name):
    """The contracts of a source file: functions, methods, and what a trait or a model says besides."""
    module = os.path.basename(file)[: -len(".rt")]
    lines = lines_of(os.path.join(TOP, file))
    scope = Scope("\n".join(lines))
    owner, has_public_methods, is_public_owner = "", False, False
    n = 0
    while n < len(lines):
        line = lines[n]
        block = re.match(r"(pub )?(trait|impl(?:<[^{]*?>)?)\s+([\w:<>', ]+ for )?(\w+)", line)
        function = re.match(r"( {4}|)(pub )?(?:const )?fn (\w+)", line)
        if block:
            owner, is_trait = block[4], block[2] == "trait"
            has_public_methods = is_trait or bool(block[3])
            is_public_owner = is_public_name(owner)
            yield Contract(owner, owner, crate, module, [], re.findall(r":\s*(\w+)", line) if is_trait else [], is_public_owner)
        elif line == "}":
            owner, has_public_methods, is_public_owner = "", False, False
        elif function:
            end = end_of_contract(lines, n, function[1])
            code = [it for it in lines[n:end] if not it.lstrip().startswith("//")]
            text = "\n".join(code)
            bounds = re.findall(r"\w+:\s*(\w+)", text.split("(")[0])
            in_owner = bool(function[1]) and bool(owner)
            public = (bool(function[2]) or has_public_methods) and is_public_owner if in_owner else bool(function[2]) and is_public_name(function[3])
            yield Contract(function[3], owner if in_owner else "", crate, module, scope.cited(text), bounds, public, parts_of(code, CLAUSE, scope))
            n = end
            continue
        elif re.match(r" {4}ghost (?!use)", line) and is_public_owner and ("ghost invariant" not in line or has_public_fields(lines, owner)):
            yield Contract(owner, owner, crate, module, scope.cited(line), [], True)
        elif re.match(r" {4}type \w+:", line):
            yield Contract(owner, owner, crate, module, [], re.findall(r"\b[A-Z]\w+\b", line.partition(":")[2]), is_public_owner)
        n += 1


def has_public_fields(lines, name):
    """Whether callers make a value of a type by its fields, and so have to show its invariant."""
    return bool(re.search(rf"^pub struct {name}\b.*{{\n(?: {{4}}///.*\n)* {{4}}pub \w+:", "\n".join(lines), re.M))


def end_of_contract(lines, n, indent):
    """The line behind a function's contract: where its body begins, or the method of a trait ends."""
    for at in range(n, len(lines)):
        if lines[at].lstrip().startswith("//"):
            continue
        begins_body = lines[at] == indent + "{" or lines[at].endswith(" {") and (at == n or lines[at].startswith(indent + ")"))
        if begins_body or lines[at].endswith(";"):
            return at + 1
    return len(lines)


class Repository:
    def __init__(self):
        with open(os.path.join(TOP, "crates.txt"), encoding="utf-8") as listed:
            rows = [line.partition("#")[0].partition(":") for line in listed]
        below = {name.split()[0]: uses.split() for name, _, uses in rows if name.strip()}
        self.crates, self.lost = [], set()
        while len(self.crates) < len(below):  # those below first
            self.crates += sorted(it for it in below if it not in self.crates and all(dep in self.crates or dep not in below for dep in below[it]))
        self.definitions, self.handed_on, self.contracts, self.constants = {}, {}, [], {}
        for crate in self.crates:
            for file in self.files(crate, "specs", ".antt"):
                for found in definitions_of(crate, file):
                    self.definitions[crate, found.module, found.name] = found
                for own, meant in handed_on_by(crate, file):
                    self.handed_on[own] = meant
            self.read_sources(crate)

    def files(self, crate, part, ending):
        folder = os.path.join(TOP, "crates", crate, part)
        names = sorted(os.listdir(folder)) if os.path.isdir(folder) else []
        return [f"crates/{crate}/{part}/{name}" for name in names if name.endswith(ending)]

    def read_sources(self, crate):
        files = self.files(crate, "src", ".rt")
        root = "\n".join("\n".join(lines_of(os.path.join(TOP, file))) for file in files if file.endswith(("/lib.rt", "/main.rt")))
        modules = set(re.findall(r"^pub mod (\w+);", root, re.M)) | {"lib"}
        exported = set(NAME.findall(" ".join(re.findall(r"^pub use ([^;]*);", root, re.M))))
        reached = set(exported)
        for file in files:
            lines = lines_of(os.path.join(TOP, file))
            if os.path.basename(file)[:-3] in modules:
                reached |= set(re.findall(r"^pub (?:struct|enum|trait|fn|const fn) (\w+)", "\n".join(lines), re.M))
            for n, line in enumerate(lines):
                value = re.match(r"pub const (\w+): \w+ = (.*);", line)
                if value:
                    self.constants[crate, value[1]] = Constant(crate, value[1], value[2], sentence(docs_above(lines, n)), file)
        for file in files:
            self.contracts += contracts_of(crate, file, reached.__contains__)

    def followed(self, contracts):
        """The definitions and constants that contracts cite, and all that these cite."""
        return self.reached([it for contract in contracts for it in contract.cites])

    def reached(self, cites):
        """The definitions and constants of these names, and of all that they cite."""
        waiting, found, constants = list(cites), {}, {}
        while waiting:
            crate, module, name = self.handed_on.get(waiting[-1], waiting[-1])
            waiting.pop()
            key = crate, module.split(".")[0], name
            if ".TheConstants" in module and (crate, name) in self.constants:
                constants[crate, name] = self.constants[crate, name]
            elif key in self.definitions and key not in found:
                found[key] = self.definitions[key]
                waiting += found[key].cites
            elif key not in found and crate in self.crates and "." not in module:
                self.lost.add(f"crates/{crate}/specs/{module}.antt has no {name}, which is cited")
        return found, constants

    def top(self):
        tops = [it for it in self.contracts if it.name == TOP_CALL and it.is_public]
        if len(tops) != 1:
            sys.exit(f"trusted: {len(tops)} public functions {TOP_CALL}")
        return tops[0]

    def clauses(self):
        """The clauses of the top call, each with the definitions that it reaches; of the record of a run each field alone."""
        for name, cites in self.top().clauses:
            records = [self.definitions[it] for it in cites if it in self.definitions and it[2] == TOP_RECORD]
            yield f"`{name}`", self.reached(it for it in cites if it[2] != TOP_RECORD)[0]
            for record in records:
                yield f"`{name}`: the record", {(record.crate, record.module, record.name): record}
                for field, its in record.fields:
                    yield f"`{name}`: `{field}`", self.reached(its)[0]
        yield "the contracts of the traits that it is stated over", self.followed(self.of_theorem()[1:])[0]

    def of_theorem(self):
        """The contract of the top call, and those of the traits that it is stated over."""
        tops = [self.top()]
        traits = set(tops[0].bounds)
        chosen = []
        while True:
            more = [it for it in self.contracts if it.owner in traits and it.is_public and it not in chosen]
            if not more:
                return tops + chosen
            chosen += more
            traits |= {bound for it in more if it.name == it.owner for bound in it.bounds}


def docs_above(lines, n):
    found = []
    while n and lines[n - 1].startswith("///"):
        n -= 1
        found.insert(0, lines[n][3:].strip())
    return found


def tables(repository, definitions, constants):
    """The definitions by question, crate and file, each file's in its order."""
    asked = {crate: at for at, (_, crates) in enumerate(QUESTIONS) for crate in crates.split()}
    order = lambda it: (asked.get(it.crate, len(QUESTIONS) - 1), repository.crates.index(it.crate), it.file, getattr(it, "line", -1))
    question = file = None
    listed = sorted([*constants.values(), *definitions.values()], key=order)
    for (at, path, says), alike in itertools.groupby(listed, lambda it: (order(it)[0], it.file, it.says)):
        if at != question:
            yield f"\n### {QUESTIONS[at][0]}\n"
            question = at
        if path != file:
            yield f"\n`{path}`\n\n| Definition | What it says |\n|---|---|"
            file = path
        names = ", ".join(f"`{it.name}`" + (f" = {it.value}" if isinstance(it, Constant) else "") for it in alike)
        yield f"| {names} | {says} |"


def in_order(repository, definitions):
    return sorted(definitions, key=lambda it: (repository.crates.index(it.crate), it.file, it.line))


def clause_rows(repository):
    """The rows of the clauses, each with the definitions that none above has reached."""
    met = set()
    for label, found in repository.clauses():
        new = in_order(repository, (it for key, it in found.items() if key not in met))
        met |= set(found)
        yield f"| {label} | {len(found)} | {', '.join(f'`{it.name}`' for it in new)} |"


def tell_clause(repository, name):
    """Prints the definitions that a clause reaches, each with its file and what it says."""
    for label, found in repository.clauses():
        if label.replace("`", "") == name:
            for it in in_order(repository, found.values()):
                print(f"{it.file}: {it.name}: {it.says}")
            return
    sys.exit(f"trusted: {TOP_CALL} has no clause {name}")


def page(repository):
    own, own_constants = repository.followed(repository.of_theorem())
    whole, constants = repository.followed([it for it in repository.contracts if it.is_public])
    rest = {key: it for key, it in whole.items() if key not in own}
    more = {key: it for key, it in constants.items() if key not in own_constants}
    for it in [*whole.values(), *own.values()]:
        if not it.says:
            print(f"trusted: no comment above {it.name} in {it.file}", file=sys.stderr)
    for text in sorted(repository.lost):
        print(f"trusted: {text}", file=sys.stderr)
    lacking = in_order(repository, (it for it in own.values() if not it.has_own))
    for it in lacking:
        print(f"trusted: {it.file}: {it.name} has no comment of its own", file=sys.stderr)
    if lacking:
        sys.exit(f"trusted: {len(lacking)} of the {len(own)} definitions that {TOP_CALL} rests on have no comment of their own")
    parts = [HEAD.format(top=TOP_CALL), f"\n## What `{TOP_CALL}` rests on: {len(own)} definitions\n", *tables(repository, own, own_constants),
             "\n\n" + CLAUSES.format(top=TOP_CALL) + "\n".join(clause_rows(repository)),
             f"\n\n## What contracts of other public functions cite besides: {len(rest)} definitions\n", *tables(repository, rest, more), "\n\n" + TAIL]
    return re.sub(r"\n{3,}", "\n\n", "\n".join(parts)).rstrip() + "\n"


def main():
    if "--clause" in sys.argv[1:]:
        return tell_clause(Repository(), " ".join(sys.argv[sys.argv.index("--clause") + 1:]))
    made = page(Repository())
    if "--check" in sys.argv[1:]:
        kept = "\n".join(lines_of(PAGE)) if os.path.isfile(PAGE) else ""
        differs = list(difflib.unified_diff(kept.splitlines(), made.splitlines(), "docs/TRUSTED.md", "as it would be made", lineterm="", n=0))
        print("\n".join(differs[:40]) or "docs/TRUSTED.md is what docs/trusted.py makes")
        sys.exit(1 if differs else 0)
    with open(PAGE, "w", encoding="utf-8", newline="\n") as file:
        file.write(made)


if __name__ == "__main__":
    main()
