"""How tools/contracts, tools/divides and tools/theorems read the sources as text. No command: these import it.

A text is read with its comments and literals blank, in places that stay: the same length, the same lines.
"""
import pathlib
import re
from typing import NamedTuple

ROOT = pathlib.Path(__file__).resolve().parent.parent


class Function(NamedTuple):
    path: str  # the modules and the type that it stands in, then its name, as Cursor::step
    public: bool  # by its own `pub`, or as a method of a public trait
    by: str  # the trait, where it stands in an `impl Trait for Type`: what it promises is that trait's
    proved: bool  # whether it has a body
    tested: bool  # whether it stands in a `#[cfg(test)]` module: a test, or what tests are made of
    closures: frozenset  # the names of the closures in it: the call that each is passed to, or the local that it is
    requires: list  # the text of each clause, with "* " in front of one that speaks of memory (`ensures*`)
    ensures: list
    lent: list  # the names of its parameters that are a &mut of a value, `self` too
    answers: bool  # whether it has a result
    line: int
    spans: list  # where the text of its clauses stands


def crates():
    """The crates that crates.txt lists, in its order."""
    lines = [line.split("#")[0] for line in (ROOT / "crates.txt").read_text().split("\n")]
    return [line.split(":")[0].strip() for line in lines if ":" in line]


def code_files(crate):
    """Every file of a crate's src/, nested ones too."""
    return sorted((ROOT / "crates" / crate / "src").rglob("*.rt"))


def is_program(crate):
    return (ROOT / "crates" / crate / "src" / "main.rt").is_file()


def blank(text):
    """As many spaces, with the ends of lines kept."""
    return re.sub(r"[^\n]", " ", text)


def nested_end(text, at, opens, closes):
    """Behind the comment that opens here: comments nest."""
    depth = 0
    for found in re.compile(re.escape(opens) + "|" + re.escape(closes)).finditer(text, at):
        depth += 1 if found.group() == opens else -1
        if depth == 0:
            return found.end()
    return len(text)


def bare_code(text):
    """Rattle with no comment, and each text and character blank."""
    parts = re.compile(r"//[^\n]*|/\*|\"(?:[^\"\\]|\\.)*\"|'(?:\\[^']+|[^'\\\n])'", re.S)
    kept, at = [], 0
    while found := parts.search(text, at):
        end = nested_end(text, found.start(), "/*", "*/") if found.group() == "/*" else found.end()
        kept += [text[at:found.start()], blank(text[found.start():end])]
        at = end
    return "".join(kept) + text[at:]


def bare_logic(text):
    """antt with no comment, and each quoted text blank."""
    parts = re.compile(r"(?<![^\s(){}.;,@\"«»])--[^\n]*|\{-|\"(?:[^\"\\]|\\.)*\"", re.S)
    kept, at = [], 0
    while found := parts.search(text, at):
        end = nested_end(text, found.start(), "{-", "-}") if found.group() == "{-" else found.end()
        kept += [text[at:found.start()], blank(text[found.start():end])]
        at = end
    return "".join(kept) + text[at:]


def behind(text, at):
    """Behind the bracket that matches the one here."""
    depth, pairs = 0, {"(": ")", "[": "]", "{": "}"}
    opens, closes = text[at], pairs[text[at]]
    for place in range(at, len(text)):
        depth += (text[place] == opens) - (text[place] == closes)
        if depth == 0:
            return place + 1
    raise ValueError(f"a {opens} that is not closed")


def folded(text):
    return " ".join(text.split())


def clauses_from(text, at):
    """From behind a function's parameters: its result's type, the places of its clauses, and its body's, or None."""
    found, start, result = {"requires": [], "ensures": []}, at, None
    # a kind, a star where it speaks of memory, a name where there are several; or a ghost value, its name and its type
    opened = re.compile(r"\b(requires|ensures|ghost)\b(\*?)\s*(?:\w+\s*:?\s*)?$")
    while True:
        stop = re.compile(r"[\[({;]").search(text, at)
        if stop is None or stop.group() == ";":
            return folded(result if result is not None else text[start:stop.start() if stop else at]), found, None
        if stop.group() in "[(":
            at = behind(text, stop.start())
            continue
        clause = opened.search(text[start:stop.start()])
        if result is None:
            result = text[start:start + clause.start()] if clause else text[start:stop.start()]
        if clause is None:
            return folded(result), found, stop.start()
        at = start = behind(text, stop.start())
        if clause.group(1) != "ghost":
            found[clause.group(1)].append((stop.start() + 1, at - 1, clause.group(2)))


HEAD = re.compile(
    r"(?P<close>\})|\b(?P<holds>mod|impl|trait|extern)\b(?P<what>[^;{}()]*)\{"
    r"|(?P<public>\bpub\b\s*(?:\([^)]*\)\s*)?)?(?:\b(?:const|unsafe|extern)\b\s*)*\bfn\s+(?P<name>\w+)|(?P<open>\{)"
)


def trait_of(kind, what):
    """The trait, where what holds functions is an impl of one, or ""."""
    names = names_of(what) if kind == "impl" else []
    return names[names.index("for") - 1] if "for" in names else ""


def names_of(what):
    return re.findall(r"\w+", re.sub(r"<[^>]*>", "", what.split(" where ")[0]))


def holder(kind, what):
    """The name that the prover has for what holds functions: of a trait's impl the type's, and the trait's behind it."""
    names = names_of(what)
    # of an impl for every type that has a bound, `impl<S: WholeSteps> Steps for S`, it is AnySteps
    if names and trait_of(kind, what) and re.match(rf"\s*<(?:[^<>]*,)?\s*{names[-1]}\s*[:,>]", what):
        names[-1] = "Any"
    if trait_of(kind, what):
        at = names.index("for")
        # what the trait is of stands behind it: `impl From<io::Error> for Stop` is StopFromIoError
        of = re.search(r"\w\s*<([^<>]*)>\s*for\b", what)
        words = re.findall(r"(?<!')\b[A-Za-z]\w*", of.group(1)) if of else []
        return names[-1] + names[at - 1] + "".join(word[0].upper() + word[1:] for word in words)
    return (names[0] if kind == "trait" else names[-1]) if names else ""


def behind_generics(text, at):
    """Behind a function's type parameters, if it has some."""
    opened = re.compile(r"\s*<").match(text, at)
    if opened is None:
        return at
    depth, at = 0, opened.end() - 1
    while True:
        depth += (text[at] == "<") - (text[at] == ">" and text[at - 1] not in "-=")
        at += 1
        if depth == 0:
            return at


def functions(text):
    """The functions of a bare file of code; a trait's methods too, which may have no body."""
    found, inside, at = [], [], 0
    while head := HEAD.search(text, at):
        at = head.end()
        if head["close"]:
            if inside:
                inside.pop()
        elif head["open"]:
            at = behind(text, head.start())
        elif head["holds"]:
            shown = head["holds"] == "trait" and re.search(r"\bpub\b\s*(?:\([^)]*\)\s*)?$", text[:head.start()])
            inside.append((holder(head["holds"], head["what"]), bool(shown), trait_of(head["holds"], head["what"])))
        else:
            params = text.index("(", behind_generics(text, at))
            at = behind(text, params)
            result, clauses, body = clauses_from(text, at)
            end = at if body is None else behind(text, body)
            body = None if body is None else text[body:end]
            held = Held([name for name, _, _ in inside if name], *(inside[-1][1:] if inside else (False, "")))
            found.append(function_at(text, head, held, text[params:at], result, clauses, body))
            at = end
    return found


def in_tests(text, at):
    """Whether a place of a bare file of code stands in a module of tests."""
    opened = re.finditer(r"#\[cfg\(test\)\]\s*mod\s+\w+\s*\{", text[:at])
    return any(at < behind(text, module.end() - 1) for module in opened)


class Held(NamedTuple):
    """What a function stands in: its names, whether it is a public trait, and the trait that it is an impl of."""
    names: list
    shown: bool
    by: str


def function_at(text, head, held, params, result, clauses, body):
    said = {kind: [f"{star} {folded(text[a:z])}".strip() for a, z, star in places] for kind, places in clauses.items()}
    # a reader or a writer is lent too, but what comes of it stands in no contract
    lent = re.findall(r"(\w+)\s*:\s*&\s*(?:'\w+\s+)?mut\b(?!\s+(?:impl|dyn)\b)", params)
    if re.match(r"\(\s*&\s*(?:'\w+\s+)?mut\s+self\b", params):
        lent.append("self")
    return Function(
        path="::".join([*held.names, head["name"]]),
        public=bool(head["public"]) or held.shown,
        by=held.by,
        proved=body is not None,
        tested=in_tests(text, head.start()),
        closures=frozenset(closures_in(body or "")),
        requires=said["requires"],
        ensures=said["ensures"],
        lent=lent,
        answers=result.startswith("->"),
        line=text.count("\n", 0, head.start()) + 1,
        spans=[place[:2] for places in clauses.values() for place in places],
    )


def closures_in(body):
    """The names that the prover has for the closures of a body: what each is passed to, or the local that it is."""
    # a `|` that opens a closure stands where a value does; one between two values is the operator, or a pattern's
    for opened in re.finditer(r"([(,=]|\bmove|\breturn)\s*\|", body):
        depth, at = 0, opened.start()
        while at >= 0 and not (depth == 0 and body[at] in "(=") and body[at] not in ";{}":
            depth += (body[at] in ")]") - (body[at] in "([" and depth > 0)
            at -= 1
        if called := re.search(r"(\w+)\s*(?:::\s*<[^()]*>\s*)?$|\blet\s+(?:mut\s+)?(\w+)[^=;]*$", body[:max(at, 0)]):
            yield called.group(1) or called.group(2)


def module_of(crate, file):
    """The module that a file of src/ is, as "deep::inner::", or nothing for the crate's root."""
    parts = file.relative_to(ROOT / "crates" / crate / "src").with_suffix("").parts
    names = [name for name in parts if name != "mod"]
    return "" if names in (["lib"], ["main"]) else "".join(name + "::" for name in names)


def derived(crate):
    """The beginnings of the names of what derives make: of Debug on a type Known, "Known" and "Debug" in one."""
    found = set()
    for file in code_files(crate):
        text = bare_code(file.read_text())
        for traits, name in re.findall(r"#\[derive\(([^)]*)\)\]\s*(?:#\[[^]]*\]\s*)*(?:pub\s+)?(?:struct|enum)\s+(\w+)", text):
            found.update(module_of(crate, file) + name + trait + "::" for trait in re.findall(r"\w+", traits))
    return found


# Methods of the library's traits that have a body there, so that the prover names them at each type that has the trait
LIBRARY_OWN = {"Iterator": {"size_hint"}}


class Impl(NamedTuple):
    name: str  # the name that the prover has for it, with the modules that it stands in, as StopFromIoError
    trait: str
    ghosts: frozenset  # the ghost members that it gives
    methods: frozenset  # the methods that it gives, as words of its text alone
    tested: bool  # whether it stands in a `#[cfg(test)]` module
    line: int


def trait_impls(crate):
    """Each impl of a trait with the file that has it."""
    for file in code_files(crate):
        text = bare_code(file.read_text())
        for head in HEAD.finditer(text):
            if head["holds"] and (trait := trait_of(head["holds"], head["what"])):
                inside = text[head.end():behind(text, head.end() - 1)]
                name = module_of(crate, file) + holder("impl", head["what"])
                ghosts, methods = (frozenset(re.findall(rf"\b{word}\s+(\w+)", inside)) for word in ("ghost", "fn"))
                tested = in_tests(text, head.start())
                yield file, Impl(name, trait, ghosts, methods, tested, text.count("\n", 0, head.start()) + 1)


def trait_own():
    """Of each trait its own methods: those with a body in it, which a type may go without, but not the final ones."""
    found = {trait: set(names) for trait, names in LIBRARY_OWN.items()}
    for crate in crates():
        for file in code_files(crate):
            text = bare_code(file.read_text())
            for head in HEAD.finditer(text):
                if head["holds"] == "trait":
                    inside = text[head.end():behind(text, head.end() - 1) - 1]
                    final = set(re.findall(r"\bfinal\s+fn\s+(\w+)", inside))
                    own = {one.path for one in functions(inside) if one.proved} - final
                    found.setdefault(holder("trait", head["what"]), set()).update(own)
    return found


def crate_functions(crate):
    """Each function of a crate with the file that has it."""
    for file in code_files(crate):
        for one in functions(bare_code(file.read_text())):
            yield file, one._replace(path=module_of(crate, file) + one.path)
