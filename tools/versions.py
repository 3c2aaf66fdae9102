"""The wrong versions in crates/NAME/must-fail and crates/NAME/wrong: what an edit's file says, and whether a check shows it.

A version's first line says what is wrong with it. `refused: WHERE FACT` names the fact that no longer holds: FACT stands in proofs/WHERE.antt, or is a goal of the function WHERE, which
proofs/WHERE/Answers.antt (or Proof.antt) answers, or which the prover finds by itself. Then, as for `rt must-fail`, one or more replacements: a line `file:` holds for the pairs of lines
`old:` and `new:` after it.

A file has one version, and its name; or several, which `rt ci` tries together, each after a line `version: NAME`. Those must differ in the bodies of different functions. A step of a proof
has its name from the code: where a version changes such a name, a further pair may turn it in the function's own proof, which is then refused for what is wrong and not for the name.

A check is read as `rt check --allow-holes` prints it: there each function sees of others their contracts, also of those that are refused.
"""
import collections
import os
import re

ROOT = os.path.dirname(os.path.dirname(os.path.abspath(__file__)))

Version = collections.namedtuple("Version", "crate folder edit label wrong where fact changes")
Change = collections.namedtuple("Change", "file old new")
# What the prover refused for itself: where, which fact, and whether what it says is only that a name is not there, as where a proof names what an edit took away.
Refused = collections.namedtuple("Refused", "where fact only_names")

# Where a proof's text names what is not there.
NAMES = re.compile(r"is not in scope|has no field|has no `|is no name|that can be named")


def read(path):
    """The text of a file."""
    with open(path, encoding="utf-8", errors="replace") as f:
        return f.read()


def write(path, text):
    """Puts a text in a file."""
    os.makedirs(os.path.dirname(path), exist_ok=True)
    with open(path, "w", encoding="utf-8") as f:
        f.write(text)


def imports():
    """The line of each crate in crates.txt, in that order, by its name."""
    lines = [line.split("#")[0].strip() for line in read(f"{ROOT}/crates.txt").split("\n")]
    return {line.split(":")[0].split()[0]: line for line in lines if ":" in line}


def version(crate, folder, edit, label, lines):
    """One version, as its lines say it."""
    where, fact, path, old, changes = "", "", "", "", []
    for line in lines[1:]:
        if line.startswith("refused: "):
            where, fact = (line[9:].split(" ") + [""])[:2]
        elif line.startswith("file: "):
            path = line[6:]
        elif line.startswith("old: "):
            old = line[5:]
        elif line.startswith("new:"):
            changes.append(Change(path, old, line[4:].removeprefix(" ")))
    return Version(crate, folder, edit, label, lines[0], where, fact, tuple(changes))


def in_edit(crate, folder, edit):
    """The versions of one file."""
    text = read(f"{ROOT}/crates/{crate}/{folder}/{edit}.edit")
    head, *named = re.split("^version: ", text, flags=re.M)
    if not named:
        return [version(crate, folder, edit, edit, head.split("\n"))]
    return [version(crate, folder, edit, label, lines) for label, *lines in (part.split("\n") for part in named)]


def versions(folder):
    """All versions in one folder of the crates, in the order of crates.txt."""
    found = []
    for crate in imports():
        home = f"{ROOT}/crates/{crate}/{folder}"
        names = sorted(os.listdir(home)) if os.path.isdir(home) else []
        found += [one for name in names if name.endswith(".edit") for one in in_edit(crate, folder, name[:-5])]
    return found


def applied(one, crates):
    """Makes a version's replacements in a copy of the crates. Gives what the files held before, and whether each old text stood there exactly once; where one did not, it
    and those after it are left."""
    held = {}
    for change in one.changes:
        path = f"{crates}/{one.crate}/{change.file}"
        text = read(path) if os.path.isfile(path) else ""
        if not change.old or text.count(change.old) != 1:
            return held, False
        held.setdefault(path, text)
        write(path, text.replace(change.old, change.new))
    return held, bool(one.changes)


def body_around(text, old):
    """The name of the function in whose body some text stands; nothing where it stands in none."""
    before, found, _ = text.partition(old)
    heads = list(re.finditer(r"^( *)(?:pub(?:\([^)]*\))? )?(?:(?:const|unsafe) )*(?:extern \"C\" )?fn (\w+)", before, re.M))
    if not found or not heads:
        return ""
    # The body opens on a line as far in as the head, which clauses are not, and closes on the next such line.
    indent, name = heads[-1].groups()
    opened = re.search(rf"^{indent}(?! )(?:.* )?\{{\n", before[heads[-1].start() :], re.M)
    if not opened:
        return ""
    inside = before[heads[-1].start() + opened.end() :]
    return "" if re.search(rf"^{indent}}}$", inside, re.M) else name


def function_around(one, change):
    """The function in whose body, or in whose own proof, a change is made; nothing where it is made elsewhere."""
    own = re.fullmatch(r"proofs/(\S+)/(?:Answers|Invariants|Proof)\.antt", change.file)
    if own:
        return own[1].split("/")[-1] if own[1] == one.where else ""
    path = f"{ROOT}/crates/{one.crate}/{change.file}"
    return body_around(read(path), change.old) if change.file.startswith("src/") and os.path.isfile(path) else ""


def function_of(one):
    """The function in whose body alone a version differs, if its fact is one of that function's own proof; else nothing. Other functions see the contract alone, so that such
    versions of different functions have nothing to do with each other."""
    names = {function_around(one, change) for change in one.changes}
    return one.where if names == {one.where.split("/")[-1]} and any(change.file.startswith("src/") for change in one.changes) else ""


def apart(check):
    """Whether versions may be tried by one check: there is one, or they differ in the bodies of different functions."""
    functions = [function_of(one) for one in check]
    return len(check) == 1 or ("" not in functions and len(set(functions)) == len(check))


def own(said):
    """What the prover refused for itself, and not because something else was refused before it, in its own order."""
    found, explained = [], set()
    for where, fact, why in re.findall(r"^(?:\./)?(?:proofs/)?(\S+?)(?:/(?:Answers|Invariants|Proof))?\.(?:antt|rt):[0-9]+:[0-9]+: error: (?:`([^`]*)`: )?(.*)", said, re.M):
        if re.match(r"`[^`]*` was not admitted|[0-9]+ declarations? that depends? on ", why):
            continue
        found.append(Refused(where, fact, bool(NAMES.search(why))))
        explained.add(where)
    for name, verdict, why in re.findall(r"^fn (\S+): (no proof|not proved)\b(.*)$", said, re.M):
        where = name.partition("::")[2].replace("::", "/")
        answers = re.search(r"expected answers in (?:\./)?proofs/(\S+)/Answers\.antt; `search` did not prove ((?:`[^`]*`(?:, | and )?)+)", why)
        if answers:
            found += [Refused(answers[1], fact, False) for fact in re.findall(r"`([^`]*)`", answers[2])]
        elif where not in explained and not re.search(r"; it stands on `|[:;] it calls `", why):
            # Nothing says which fact it is.
            found.append(Refused(where, "", False))
    return found


def beside(said, check):
    """Where the prover refused something for itself outside the functions in whose bodies the versions of a check differ; nothing where one differs elsewhere."""
    functions = {function_of(one) for one in check}
    return set() if "" in functions else {refused.where for refused in own(said)} - functions


def first_refused(said, one):
    """The first that the prover refused for itself, of all or, where a function's body alone differs, in that function; nothing where there is none. A version is shown where that is its
    fact, and is refused not only since a name is not there."""
    function = function_of(one)
    return next((each for each in own(said) if not function or each.where == function), None)
