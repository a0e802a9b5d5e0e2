"""prover.py: has `rt` prove theorems about the paper's definitions, in a scratch repository outside of this one, and tells which do not hold."""
import atexit
import pathlib
import re
import shutil
import subprocess
import tempfile

import names

REPO = pathlib.Path(__file__).resolve().parents[2]
# The gate refuses theorems that no crate of its repository has, so they stand elsewhere, until the run has ended.
SCRATCH = pathlib.Path(tempfile.mkdtemp(prefix="zeharmeku-definitions-"))
atexit.register(shutil.rmtree, SCRATCH, ignore_errors=True)
MODULE_SIZE = 40  # theorems in one module

HEADER = """use mathlib.Core.Path.{◌≡◌, refl}
use mathlib.Core.Bool.{Bool, true, false}
use mathlib.Core.List.{List, [], ◌∷◌, ◌++◌}
use Prim.Native.Nat.{ℕ}
use lib.ListN.{length, get_or, take, drop, set, replicate}
use Rattle.rules.proofs.Computed.{computed}
use Rattle.rules.specs.Text.{bytes, Result, granted, refused}
use Rattle.rules.specs.Meaning.{Meaning, item}
use Rattle.rules.specs.Compile.{compile_of}
use Rattle.rules.specs.Table.{sums, ends, doubled, mask, bucket, listing, starts, stored_form, gaps, meaning_in, accepted}
use Rattle.rules.specs.Order.{less, equal, greater, sign_bytes}
use Rattle.rules.specs.Charmap.{charmap_of}
use Rattle.rules.specs.Calls.{compile_call, check_call, step_call, compare_call, key_call, decode_call, encode_call, charmap_call, area_call, directory_call}
use Rattle.rules.specs.Pairs.{pairs_of}

-- what a source gives: its refusal, 0 for none, and its line; the meaning, or the numbers, if it is accepted
abbrev refusal_in : {A : Type 0} → Result A → ℕ
refusal_in (granted a) = 0
refusal_in (refused n l) = n

abbrev line_in : {A : Type 0} → Result A → ℕ
line_in (granted a) = 0
line_in (refused n l) = l

abbrev meaning_given : Result Meaning → Meaning
meaning_given (granted m) = m
meaning_given (refused n l) = record { rules = []; items = [] }

abbrev numbers_given : Result (List ℕ) → List ℕ
numbers_given (granted ns) = ns
numbers_given (refused n l) = []
"""


class CouldNotCompute(Exception):
    """The prover failed, or refused something that is no row; with what it said."""


class Module:
    """A module of theorems, and whose each of its lines is."""

    def __init__(self, terms):
        self.terms, self.lines, self.owners, self.defined, self.count = terms, HEADER.split("\n"), {}, set(), 0

    def define(self, name):
        """A named term, once, after those that it uses."""
        if name not in self.defined:
            self.defined.add(name)
            kind, term, uses = self.terms[name]
            for used in uses:
                self.define(used)
            self.lines += [f"abbrev table-{name} : {kind}", f"table-{name} = {term}", ""]

    def theorem(self, owner, left, right, uses=()):
        for name in uses:
            self.define(name)
        self.count += 1
        begins = len(self.lines) + 1
        self.lines += [f"row-{self.count} : {left} ≡ {right}", "unfolding computed", f"row-{self.count} = refl", ""]
        self.owners.update({n: owner for n in range(begins, len(self.lines) + 1)})


def modules_for(crates, crate, terms):
    """The module of a crate that takes the next theorem."""
    modules = crates.setdefault(crate, [])
    if not modules or modules[-1].count >= MODULE_SIZE:
        modules.append(Module(terms))
    return modules[-1]


# ---------------------------------------------------------------- the scratch repository


def write(path, content):
    path.parent.mkdir(parents=True, exist_ok=True)
    path.write_text(content, encoding="utf-8")


def below_rules():
    """[(crate, the crates that it names)] of the rules and what they stand on, from the bottom."""
    deps, found = {}, []
    for line in (REPO / "crates.txt").read_text(encoding="utf-8").split("\n"):
        name, colon, after = line.split("#")[0].partition(":")
        if colon:
            deps[name.strip()] = after.split()

    def visit(name):
        if name in deps and name not in found:
            for dep in deps[name]:
                visit(dep)
            found.append(name)

    visit("rules")
    return [(name, deps[name]) for name in found]


def prepare(crates):
    """Writes the scratch repository: the paper's definitions without their laws, and {crate: modules}."""
    shutil.rmtree(SCRATCH / "crates", ignore_errors=True)
    lines = []
    for name, deps in below_rules():
        lines.append(f"{name}: {' '.join(deps)}")
        for part in ["src", "specs"] + (["proofs"] if name != "rules" else []):
            if (REPO / "crates" / name / part).is_dir():
                shutil.copytree(REPO / "crates" / name / part, SCRATCH / "crates" / name / part)
    write(SCRATCH / "crates/rules/proofs/Computed.antt", names.computed("Rattle.rules"))
    write(SCRATCH / "crates/rules/proofs/Lib.antt", "pub mod Computed\n")
    for name, modules in crates.items():
        lines.append(f"{name}: rules")
        write(SCRATCH / "crates" / name / "src/lib.rt", "// Rows of vectors.\n")
        write(SCRATCH / "crates" / name / "proofs/Lib.antt", "".join(f"mod Rows{k}\n" for k in range(len(modules))))
        for k, module in enumerate(modules):
            write(SCRATCH / "crates" / name / f"proofs/Rows{k}.antt", "\n".join(module.lines))
    write(SCRATCH / "crates.txt", "\n".join(lines) + "\n")


# ---------------------------------------------------------------- the prover's answer

BEGINS = re.compile(r"^== (\w+)$")  # what is said of a crate
ERROR = re.compile(r"^\S*\bproofs/Rows(\d+)\.antt:(\d+):\d+: error: (.*)$")


def prove(crates):
    """{owner: what the prover said} of the theorems of {crate: modules} that do not hold. One check reports every such theorem."""
    prepare(crates)
    try:
        done = subprocess.run(
            ["rt", "all", "check"], cwd=SCRATCH, stdout=subprocess.PIPE, stderr=subprocess.STDOUT, text=True, check=False
        )
    except OSError as e:
        raise CouldNotCompute(f"rt: {e}") from e
    failed, explained, lines, crate = {}, set(), done.stdout.split("\n"), ""
    for at, line in enumerate(lines):
        begins, m = BEGINS.match(line), ERROR.match(line)
        if begins:
            crate = begins.group(1)
        if m and crate in crates:
            owner = crates[crate][int(m.group(1))].owners.get(int(m.group(2)))
            if owner is None:
                raise CouldNotCompute(done.stdout)
            more = []
            while at + 1 + len(more) < len(lines) and lines[at + 1 + len(more)].startswith("  "):
                more.append(lines[at + 1 + len(more)].strip())
            failed.setdefault(owner, "\n".join([m.group(3), *more]))
            explained.add(crate)
    refused = set(re.findall(r"^(\w+): failed", done.stdout.rpartition("\n== summary\n")[2], flags=re.M))
    if refused != explained or (done.returncode == 0) == bool(failed):
        raise CouldNotCompute(done.stdout)
    return failed
