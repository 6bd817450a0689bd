"""Wrong bodies, as the files of crates/CRATE/gate-bodies/ and crates/CRATE/bodies/ say them: `file: PATH`, then pairs of `old: TEXT` and
`new: TEXT`, a line each. A line `only: FUNCTION` names the function that is changed where it isn't found by its place: a method is called
by the module of its type, as a check prints it."""

import re

from trying import CRATES

KINDS = ("bodies", "gate-bodies")  # the folders of a crate that have them
PARTS = ("src", "specs", "proofs")  # what a check reads
TYPE_HEAD = re.compile(r"(?<![:\w])[A-Z]\w*(?=::)")  # of a path in the code, such as the type of a variant
PRELUDE = {"Option", "Result", "Vec"}  # which no file imports
BLOCK_HEAD = re.compile(r"^(?:pub(?:\([\w ]+\))? )?impl(?:<.*?>)? (?:(\w+)(?:<.*?>)? for )?(\w+)|^\S.*", re.M)
WITHIN = ("}", "//", "#", "{", "where", ")")  # how a line of the first column begins that opens no block
CLAUSE = re.compile(r"^(?:note: |\./)?src/\S+:\d+:\d+: .*", re.M)
ANSWER = re.compile(r"^(?:\./)?proofs/\S+:\d+:\d+: error: .*", re.M)  # of a goal that the body has changed


def edits_in(crate, kinds=KINDS):
    """The wrong bodies of a crate in these folders."""
    return [path for kind in kinds for path in sorted((crate / kind).glob("*.edit"))]


def edit_named(word):
    """The body CRATE/NAME, in any folder of the crate, if there is one."""
    crate, _, name = word.partition("/")
    return next((path for kind in KINDS if (path := CRATES / crate / kind / f"{name}.edit").is_file()), None)


def strangers_in(text, news):
    """The types that new lines of a file name, and that neither the file knows nor an import among the lines."""
    known = set(re.findall(r"\w+", "\n".join([text, *re.findall(r"\buse [^;]*;", "\n".join(news))])))
    return set(TYPE_HEAD.findall("\n".join(news))) - known - PRELUDE


def function_at(path, text, place):
    """The function at this place of a file, by its path in the crate; none before the first."""
    if "fn " not in text[:place]:
        return None
    name = re.findall(r"\bfn (\w+)", text[:place])[-1]
    blocks = [found for found in BLOCK_HEAD.finditer(text, 0, place) if not found[0].startswith(WITHIN)]
    of = blocks[-1] if blocks and blocks[-1][2] else None
    module = [part for part in path.with_suffix("").parts[1:] if part != "lib"]
    return "::".join([*module, *([f"{of[2]}{of[1] or ''}"] if of else []), name])


def read_edit(edit):
    """The files of its crate that an edit changes, as they are then, and the functions that it changes. An error says why it does not
    fit: each text that it replaces stands once in its file, and the file knows the types that it names, so that it reaches the prover."""
    crate = edit.parents[1]
    path, old, texts, news, functions, named = None, "", {}, {}, [], []
    for word, rest in re.findall(r"^(file|old|new|only): ?(.*)$", edit.read_text(), re.M):
        if word == "only":
            named.append(rest)
        elif word == "file":
            path = crate / rest
            texts.setdefault(path, path.read_text() if path.is_file() else "")
        elif word == "old":
            old = rest
            if texts[path].count(old) != 1:
                raise ValueError(f"{old!r} stands {texts[path].count(old)} times in {path.name}")
            functions.append(function_at(path.relative_to(crate), texts[path], texts[path].index(old) + len(old)))
        else:
            news.setdefault(path, []).append(rest)
            texts[path] = texts[path].replace(old, rest)
    if not texts:
        raise ValueError("it names no file")
    for path, lines in news.items():
        if strangers := strangers_in(path.read_text(), lines):
            raise ValueError(f"{path.name} knows no {' '.join(sorted(strangers))}")
    return texts, named or [*dict.fromkeys(name for name in functions if name)]


def why_unfit(edit):
    try:
        read_edit(edit)
    except ValueError as why:
        return str(why)
    return None
