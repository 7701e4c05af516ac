"""Reads files of must-fail edits, makes the edits in a folder with their crate, and runs the tests that an edit names.
checks/edits tells what an edit is."""
import copy
import functools
import re
import shutil
import subprocess
import tempfile
from collections import defaultdict
from pathlib import Path

TOP = Path(__file__).resolve().parent.parent
# The lines of an edit that say what it is. The others say why.
SAYING = "file", "old", "new", "new:", "fails", "because", "seen"
# The words before a parenthesis that call nothing.
NO_CALLS = {"if", "while", "match", "for", "return", "fn", "in", "let", "as", "move", "pub"}
# Functions of numbers and slices whose results std states exactly. Their calls leave the callees as they are.
EXACT = {"min", "max", "saturating_add", "saturating_sub", "wrapping_add", "wrapping_sub", "len", "is_empty", "from", "into"}
# The head of a function.
FN = r'[ ]*(?:pub(?:\([a-z]+\))? )?(?:const |unsafe |extern "C" )*fn (\w+)'


class Unusable(Exception):
    """The reason why the edits can't be tried at all."""


class Function:
    """A function. It has a module and a name. A method also has its type, or the trait that declares it. A method of a
    trait's impl has both."""

    def __init__(self, module, of_type, of_trait, name):
        self.module, self.of_type, self.of_trait, self.name = module, of_type, of_trait, name
        self.owner = (of_type or "") + (of_trait or "")

    def short_name(self):
        """Returns the function's name as a check prints it, or the end of that."""
        return f"{self.owner}::{self.name}" if self.owner else f"{self.module}::{self.name}"

    def copied(self, number):
        """Returns the function's copy with this number."""
        return Function(self.module, self.of_type, self.of_trait, f"{self.name}_copy_{number}")

    def is_called_in(self, text):
        """Returns whether a text in its module, or in its impl, calls it."""
        before = rf"\b(?:self\.|Self::|{self.of_type}::)" if self.owner else r"(?<![.:\w])(?<!\bfn )"
        return bool(re.search(rf"{before}{self.name}\(", text))

    def full_name(self, names):
        """Returns the function's name among those that a check printed, or None. A check names a method by its type, in
        the type's own module, and a trait's method by type and trait in one word."""
        if not self.owner:
            return self.short_name() if self.short_name() in names else None
        ends = [it.split("::") for it in names if it.endswith(f"::{self.name}")]
        found = [it for it in ends if it[-2] == self.owner]
        if not found and self.of_trait:
            found = [it for it in ends if it[-2].startswith(self.owner)]
        found = ["::".join(it) for it in found]
        near = [it for it in found if it.startswith(f"{self.module}::")] or found
        return near[0] if len(near) == 1 else None


class Seen:
    """A test that fails with an edit."""

    def __init__(self, crate, test):
        self.crate, self.test = crate, test

    def fails(self, folder):
        """Returns whether the test fails in a copy of the repository. It must be there."""
        ran = subprocess.run(["rt", "try", "--test", "--", self.test], cwd=folder / "crates" / self.crate,
                             stdin=subprocess.DEVNULL, capture_output=True, text=True)
        counts = re.search(r"(?m)^test result: \w+\. (\d+) passed; (\d+) failed", ran.stdout + ran.stderr)
        if not counts or not int(counts[1]) + int(counts[2]):
            raise Unusable(f"'seen: {self.crate} {self.test}' names no test that can be run: {(ran.stdout + ran.stderr)[-400:]}")
        return int(counts[2]) > 0

    def shows(self, edit):
        """Returns whether the test passes without the edit, and fails with it."""
        with tempfile.TemporaryDirectory(prefix="seen-") as room:
            folder = Path(room)
            shutil.copy(TOP / "crates.txt", folder)
            shutil.copytree(TOP / "crates", folder / "crates", ignore=shutil.ignore_patterns("out"))
            before = self.fails(folder)
            apply([edit], folder / "crates" / edit.crate)
            return not before and self.fails(folder)


class Edit:
    def __init__(self, path):
        self.path = path
        self.crate = path.parent.name
        # Why it must not be refused, or None of an edit that must be.
        self.because = None
        self.pairs, self.fails, self.seen, self.wrong = [], [], [], None
        file = old = None
        lines = path.read_text(encoding="utf-8").split("\n")
        # What the edit is, without the lines that say why.
        self.text = "".join(f"{line}\n" for line in lines if line.partition(": ")[0] in SAYING)
        for line in lines:
            word, _, text = line.partition(": ")
            if old is not None and word in ("file", "old"):
                raise Unusable(f"{self}: an 'old:' without its 'new:': {old}")
            if word == "file":
                file = text.strip()
            elif word == "fails":
                self.fails.append(text.strip())
            elif word == "because":
                self.because = text.strip()
            elif word == "seen":
                self.seen.append(Seen(*text.split()))
            elif word == "wrong":
                self.wrong = text.strip()
            elif word == "old":
                old = text
            elif word in ("new", "new:"):
                self.pairs.append((file, old, text))
                old = None
        if not self.pairs or old is not None or any(None in it for it in self.pairs):
            raise Unusable(f"{self}: no whole pair of 'old:' and 'new:' below a 'file:'")
        if other := next((file for file, *_ in self.pairs if not file.startswith("src/")), None):
            raise Unusable(f"{self}: it edits {other}, but a wrong body is one of src/")
        if self.because not in (("proved", "name", "undecided") if path.parent.parent.name == "not-refused" else (None,)):
            raise Unusable(f"{self}: a line 'because: WORD' is for the edits of checks/not-refused, and each of them has one")
        self.functions = [function_at(self.crate, file, at, old) for file, at, old, _ in self.places()]
        # The other functions that use a constant that it changes. An edit of anything else is tried by itself.
        self.users = self.users_of_constants()
        self.is_alone = self.users is None
        self.can_be_copied = self.fits_a_copy()
        # The number of the copy of its function in which it is made, if it is made in a copy, and the edit itself.
        self.copy, self.original = None, self

    def __str__(self):
        return f"{self.crate}/{self.path.name}"

    def places(self):
        """Yields each pair's file, the offset of its old text, and both texts."""
        for file, old, new in self.pairs:
            source = TOP / "crates" / self.crate / file
            if not source.is_file():
                raise Unusable(f"{self}: there is no {file} in crates/{self.crate}")
            text = source.read_text(encoding="utf-8")
            if text.count(old) != 1:
                raise Unusable(f"{self}: its text occurs {text.count(old)} times in {file}, not once: {old}")
            if is_in_clause(text, text.index(old)):
                raise Unusable(f"{self}: it changes a clause, and so what the proofs are of: {old}")
            yield file, text.index(old), old, new

    def fits_a_copy(self):
        """Returns whether it can be made in a copy of its function: it changes only this one and must break it, and the
        function has a name of its own, is no method of a trait, and doesn't call itself."""
        places = list(self.places())
        spans = {(file, function_span(self.source(file), at, old)) for file, at, old, _ in places}
        if self.fails or None in self.functions or len(spans) > 1 or self.functions[0].of_trait or not self.proof_path():
            return False
        file, at, old, _ = places[0]
        texts = [function_text(self.source(file), at, old), *(new for *_, new in places)]
        return not any(map(self.functions[0].is_called_in, texts))

    def source(self, file):
        """Returns the text of a file of its crate."""
        return (TOP / "crates" / self.crate / file).read_text(encoding="utf-8")

    def proof_path(self):
        """Returns the names of the folders below proofs/ that lead to the proof files of its first function, or None if
        the function's name isn't known."""
        name = self.functions[0].full_name(functions_of(self.crate))
        return name and name.split("::")[1:]

    def copied(self, number):
        """Returns the edit as it is made in the copy of its function with this number."""
        other = copy.copy(self)
        other.copy = number
        other.functions = [it.copied(number) for it in self.functions]
        return other

    def changes(self):
        """Yields each change that it makes: the file, the offset, the text that goes, and the text that comes."""
        places = list(self.places())
        if not self.copy:
            yield from places
            return
        file, at, old, _ = places[0]
        text = self.source(file)
        start, end = function_span(text, at, old)
        made = replaced(text, places)[start : end + sum(len(new) - len(old) for *_, old, new in places)]
        name = self.functions[0].name
        yield file, end, "", "\n" + re.sub(r"\bfn \w+", f"fn {name}", made, count=1)

    def calls_anew(self):
        """Returns whether a function that it changes then calls what it doesn't call without the edit."""
        for file, at, old, new in self.places():
            text = (TOP / "crates" / self.crate / file).read_text(encoding="utf-8")
            if calls_in(new) - EXACT - calls_in(function_text(text, at, old)):
                return True
        return False

    def users_of_constants(self):
        """Returns the functions that use the constants that it changes, or None if it changes more than bodies and
        constants, or constants that more than bodies use."""
        users = []
        for (file, at, old, new), function in zip(self.places(), self.functions):
            if not function:
                text = (TOP / "crates" / self.crate / file).read_text(encoding="utf-8")
                constant = constant_at(text, at)
                after = text[:at] + new + text[at + len(old) :]
                found = users_of(self.crate, constant) if constant == constant_at(after, at) else None
                if found is None:
                    return None
                users += found
        return users

    def asked(self):
        """Returns the functions that it must break, by the ends of their names."""
        return self.fails or [it.short_name() for it in self.functions if it]

    def meets(self, other):
        """Returns whether the edits can't share a round: a function that one of them changes or must break is also one of
        the other's, and not both can be made in copies."""
        if self.can_be_copied and other.can_be_copied:
            return False
        own, others = ({*it.asked(), *(f.short_name() for f in [*it.functions, *it.users] if f)} for it in (self, other))
        return any(f"::{a}".endswith(f"::{b}") or f"::{b}".endswith(f"::{a}") for a in own for b in others)

    def broken(self, names):
        """Returns the functions that it must break, by the names that a check printed. A name that none or several of
        them fit stays as it is."""
        if not self.fails:
            return sorted(it.full_name(names) or it.short_name() for it in self.functions if it)
        fits = [(end, [it for it in names if f"::{it}".endswith(f"::{end}")]) for end in self.fails]
        return [found[0] if len(found) == 1 else end for end, found in fits]

    def is_among(self, names):
        """Returns whether a check named all that the edit must break."""
        return all(it in names for it in self.broken(names))


def apply(edits, folder):
    """Applies edits to their crate in this folder."""
    changes = [it for edit in edits for it in edit.changes()]
    for file in {it[0] for it in changes}:
        text = (folder / file).read_text(encoding="utf-8")
        (folder / file).write_text(replaced(text, [it for it in changes if it[0] == file]), encoding="utf-8")


def replaced(text, changes):
    """Returns the text of a file with its changes."""
    # From the last place to the first, so that offsets stay right.
    for _, at, old, new in sorted(changes, reverse=True):
        text = text[:at] + new + text[at + len(old) :]
    return text


def is_in_clause(text, at):
    """Returns whether the place is in a clause of a contract. The body of a function with clauses begins with a brace in a
    line of its own."""
    end = text.find("\n", at)
    for line in reversed(text[: end if end >= 0 else len(text)].split("\n")):
        if re.match(r"\s*(?:requires|ensures)\b", line):
            return True
        if line.strip() == "{" or re.match(r"\s*(?:pub\S* )?(?:\w+ )*(?:fn|impl|trait|mod|const|static|struct|enum) ", line):
            return False
    return False


def calls_in(text):
    """Returns the names that a text calls."""
    return set(re.findall(r"\b([a-z_]\w*)!?(?:::<[^()]*>)?\(", re.sub(r"//.*", "", text))) - NO_CALLS


def function_span(text, at, old):
    """Returns where the function in whose body the place is begins, with the comments and attributes above it, and where
    it ends. They are equal if there is none."""
    lines = re.findall(r"[^\n]*\n|[^\n]+", text)
    first = last = text[: at + len(old) - len(old.lstrip())].count("\n")
    while first > 0 and not re.match(FN, lines[first]):
        first -= 1
    if not re.match(FN, lines[first]):
        return 0, 0
    indent = lines[first][: len(lines[first]) - len(lines[first].lstrip())]
    while last < len(lines) - 1 and not lines[last].startswith(f"{indent}}}"):
        last += 1
    while first > 0 and lines[first - 1].lstrip().startswith(("#[", "//")):
        first -= 1
    return len("".join(lines[:first])), len("".join(lines[: last + 1]))


def function_text(text, at, old):
    """Returns the text of the function in whose body the place is."""
    start, end = function_span(text, at, old)
    return text[start:end]


def function_at(crate, file, at, old):
    """Returns the function in whose body the text is, or None if it is in none."""
    text = (TOP / "crates" / crate / file).read_text(encoding="utf-8")
    before = text[: at + len(old) - len(old.lstrip())].split("\n")
    line = text.split("\n")[len(before) - 1]
    function = owner = header = None
    # Goes outwards by lines with less indentation: to the function, and then to its impl or trait.
    left = len(line) - len(line.lstrip()) + 1
    for line in reversed([*before[:-1], line]):
        indent = len(line) - len(line.lstrip())
        if not line.strip() or indent >= left or line.lstrip()[0] in "{})":
            continue
        left = indent
        if found := re.match(FN, line):
            function = function or found[1]
        elif found := re.match(r"\s*(?:pub(?:\([a-z]+\))? )?(impl|trait)\b(.*)", line):
            owner, header = found[1], found[2]
    if not function:
        return None
    module, words = module_of(crate, file), words_of(header or "")
    if "for" in words:
        return Function(module, words[-1], words[words.index("for") - 1] + parameters_of_trait(header), function)
    if owner == "trait":
        return Function(module, None, words[0], function)
    return Function(module, words[0] if words else None, None, function)


def module_of(crate, file):
    """Returns the module that a file of src/ is."""
    inside = [crate, *file.removesuffix(".rt").removesuffix("/mod").split("/")[1:]]
    return "::".join(inside[:-1] if inside[-1] in ("lib", "main") else inside)


@functools.cache
def functions_of(crate):
    """Returns the functions in the sources of a crate, tests among them, by the names that a check prints. Functions that
    a macro makes are missing, and so are those that a trait declares, and methods of a type whose name several have."""
    folder = TOP / "crates" / crate
    texts = {str(it.relative_to(folder)): it.read_text(encoding="utf-8") for it in folder.glob("src/**/*.rt")}
    types = defaultdict(list)
    for file, text in texts.items():
        for found in re.finditer(r"(?m)^(?:pub(?:\([a-z]+\))? )?(?:struct|enum) (\w+)", text):
            types[found[1]].append(module_of(crate, file))
    names = set()
    for file, text in texts.items():
        for found in re.finditer(rf"(?m)^{FN}", text):
            function = function_at(crate, file, found.start(), found[0])
            # A method is named in its type's module, one of a trait's impl in the impl's.
            is_inherent = function.of_type and not function.of_trait
            modules = types[function.of_type] if is_inherent else [function.module]
            if len(modules) == 1 and (function.of_type or not function.of_trait):
                names.add("::".join(filter(None, [*modules, function.owner, function.name])))
    return sorted(names)


def constant_at(text, at):
    """Returns the name of the constant in whose line the place is, or None."""
    line = text[text.rfind("\n", 0, at) + 1 :].split("\n")[0]
    found = re.match(r"(?:pub(?:\([a-z]+\))? )?(?:const|static) (\w+): ", line)
    return found[1] if found else None


def users_of(crate, constant):
    """Returns the functions of a crate that use a constant, or None if more than bodies use it."""
    users = []
    for path in sorted((TOP / "crates" / crate / "src").rglob("*.rt")) if constant else [None]:
        if path is None:
            return None
        text = re.sub(r"//.*", lambda it: " " * len(it[0]), path.read_text(encoding="utf-8"))
        for found in re.finditer(rf"\b{constant}\b", text):
            start = text.rfind("\n", 0, found.start()) + 1
            if re.match(rf"(?:pub(?:\([a-z]+\))? )?(?:(?:const|static) {constant}:|use )", text[start:]):
                continue
            function = function_at(crate, str(path.relative_to(TOP / "crates" / crate)), found.start(), constant)
            if not function:
                return None
            users.append(function)
    return users


def parameters_of_trait(header):
    """Returns the type parameters of an impl's trait, as a check prints them after the trait's name: `IoError` for
    `From<io::Error>`."""
    found = re.search(r"<([^<>]*)> for ", header)
    return "".join(it[0].upper() + it[1:] for it in re.findall(r"\w+", found[1])) if found else ""


def words_of(header):
    """Returns the words of the head of an impl or a trait, without parameters."""
    return re.findall(r"\w+", re.sub(r"<[^<>]*>", "", re.sub(r"<[^<>]*>", "", header)))
