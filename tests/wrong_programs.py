#!/usr/bin/env python3
"""usage: wrong_programs.py [SAID]            writes docs/WRONG-PROGRAMS.md
       wrong_programs.py --check [SAID]    writes nothing, and says each line in which the stored file differs

The tables of the wrong programs: of every crates/CRATE/must-fail/EDIT.edit what it breaks, by its own first line, and the first fact that the
prover refused, by what rt says of the edit. SAID is a file with what `rt ci` or `rt must-fail` printed; without one `rt must-fail` is run
here, which tries only what changed since it was tried.

rt's text is read strictly: a line that isn't known here, or a fact that WORDS has no words for, ends it, with the line. Each edit must begin
with its comment, find each `old` exactly once in its file, and be told of exactly once.
Exit status: 0, 1 if something differs or is wrong, 2 if rt tells nothing of an edit, or not whether it is refused.
"""
import difflib
import pathlib
import re
import subprocess
import sys

TOP = pathlib.Path(__file__).resolve().parent.parent
STORED = TOP / "docs" / "WRONG-PROGRAMS.md"

# What kind of fact it is, by the prover's own name for a goal of a function's proof, and the words for it. A goal's name may go on with the
# variable or the branch that it is of, and a number.
ON = r"(-\S+)?"
WORDS = (
    ("returns" + ON, "what it ensures on return"),
    (r"\S+-requires" + ON, "what a callee asks of its caller"),
    (r"loop-\S+-init", "the loop's invariant at its start"),
    (r"loop-\S+-preserved", "the loop's invariant after a turn"),
    (r"loop-\S+-smaller", "that the loop's measure falls with each turn"),
    ("overflow_(add|sub|mul|neg|shl|shr|cast|step)" + ON, "that a number fits its type"),
    ("nonzero_(div|rem)" + ON, "that a divisor isn't 0"),
    ("bounds" + ON, "that an index is below the length"),
    ("(slice|offset)_bounds" + ON, "that a part lies within its whole"),
    ("shape_of" + ON, "that a lent slice keeps its length"),
)

# What rt says of an edit that is refused, with the first line of the check that tells of an error, which is cut off at some length. In a goal
# that the prover closes by itself it is a note, by the place in the source; in a proof's file an error, by the file and the fact. REFUSED has
# how an error begins where a fact is refused, since one may also say that a proof's text is unfit for the program, which tells nothing of a fact.
TOLD = re.compile(r"rt: must-fail (?P<crate>\w+)/(?P<edit>[\w.-]+)\.edit: (?P<what>.*)")
AS_IT_MUST = re.compile(r"refused, as it must be: (?P<line>.*)")
NOTE = re.compile(r"note: (?:\./)?(?P<path>src/[^:]+):(?P<row>\d+):\d+: it is not proved that (?P<what>.*)")
GOAL = re.compile(r".* \(`(?P<goal>[^`]+)(?P<end>`\).*)?")
ERROR = re.compile(r"(?:\./)?(?P<path>proofs/[^:]+):\d+:\d+: error: `(?P<fact>[^`]+)`: (?P<why>.*)")
REFUSED = re.compile(
    r"as printed, the two (types|sides) .*|computed as far as they go, the two types .*|expected (the )?type `.*"
    r"|`omega`: the (goal|part `[^`]+` of the goal) does not follow .*|`(search|grind|simp|cc)`: no proof of .*|`grind` found no proof[.,] .*|`rw`: no (occurrence|part) of .*"
    r"|give a proof of that as the last argument, `(simp|rw) L t` .*"
)

INTRODUCTION = """\
# Wrong programs

An *edit*, crates/CRATE/must-fail/EDIT.edit, is a wrong program: a comment, and the texts to exchange in its crate. `rt ci` applies each to a copy of the crate, and fails unless the prover refuses every one; one that can't be applied or read fails `./test`. Where an edit's name ends in `agreed`, it changes the definition too, so that code and definition agree on something wrong, and a sample or a law must refuse it.

*What it breaks* is the edit's comment: the rule that the program no longer keeps. *The fact that fails* is the first that the prover refuses, as `rt ci` tells it: a function and a goal of its proof, by the prover's name for it; a law; or a sample. More may be refused after it. Of some the prover says that its search for the fact gave up at a limit: in the right program the same search finds it.

`rt must-fail CRATE` tries the edits of one crate, and says of each what refused it.

This file is made from the edits and what rt says of them. Whoever adds an edit or changes one runs `python3 tests/wrong_programs.py`, which tries what changed; `./test` compares.
"""
HEAD = "| Edit | What it breaks | The fact that fails |\n|---|---|---|\n"


class Wrong(Exception):
    """Something differs, or is wrong: exit status 1."""


class Missing(Exception):
    """rt tells nothing of an edit, or not whether it is refused: exit status 2."""


def shown(path):
    return path.relative_to(TOP)


# ── edits


def edit_files():
    """every edit's file, in the order of crates.txt, then by name"""
    lines = (TOP / "crates.txt").read_text(encoding="utf-8").split("\n")
    order = [line.split(":")[0].split()[0] for line in lines if ":" in line and not line.startswith("#")]
    files = list(TOP.glob("crates/*/must-fail/*.edit"))
    for file in files:
        if crate_of(file) not in order:
            raise Wrong(f"{shown(file)}: its crate isn't in crates.txt")
    return sorted(files, key=lambda file: (order.index(crate_of(file)), file.stem))


def crate_of(file):
    return file.parent.parent.name


def read_edit(file):
    """what the edit breaks, and its exchanges: path in the crate, old text, new text"""
    comment, *lines = file.read_text(encoding="utf-8").rstrip("\n").split("\n")
    if not re.fullmatch(r"# \S.*", comment):
        raise Wrong(f"{shown(file)}:1: not a comment that says what the edit breaks: {comment}")
    exchanges, path, old = [], "", ""
    for number, line in enumerate(lines, 2):
        match = re.fullmatch(r"(file|old|new):(?: (.*))?", line)
        word, text = match.groups("") if match else ("", "")
        if word == "file" and text and not old:
            path = text
        elif word == "old" and text and path and not old:
            old = text
        elif word == "new" and old:
            exchanges.append((path, old, text))
            old = ""
        else:
            raise Wrong(f"{shown(file)}:{number}: not a line that an edit can have here: {line}")
    if old or not exchanges:
        raise Wrong(f"{shown(file)}: no `new:` at its end")
    if file.stem.endswith("_agreed") != any(path.startswith("specs/") for path, _, _ in exchanges):
        raise Wrong(f"{shown(file)}: a name must end in `agreed` exactly if the edit changes a definition too (specs/)")
    return comment[2:], exchanges


def sources(folder):
    """what the prover reads of a crate, or of an edit's copy of it: the text of each file, by its path there"""
    files = [file for part in ("src", "specs", "proofs") for file in (folder / part).rglob("*") if file.is_file()]
    return {str(file.relative_to(folder)): file.read_text(encoding="utf-8") for file in files}


def edited(file, exchanges):
    """the sources of the edit's crate, with the edit"""
    texts = sources(file.parent.parent)
    for path, old, new in exchanges:
        count = texts.get(path, "").count(old)
        if count != 1:
            raise Wrong(f"{shown(file)}: `old` must stand once in {path}, and stands there {count} times: {old}")
        texts[path] = texts[path].replace(old, new)
    return texts


# ── what rt says


def said_by_rt():
    """what `rt must-fail` prints; it tries again only what changed"""
    try:
        return subprocess.run(["rt", "must-fail"], cwd=TOP, stdin=subprocess.DEVNULL, stdout=subprocess.PIPE, text=True).stdout
    except FileNotFoundError:
        raise Missing("the command rt is missing (README.md says what is needed)") from None


def told_of(said):
    """what rt says of each edit, by crate and name"""
    found = {}
    for line in said.split("\n"):
        match = TOLD.fullmatch(line)
        if match:
            if match["what"] != found.setdefault((match["crate"], match["edit"]), match["what"]):
                raise Wrong(f"rt tells two things of {match['crate']}/{match['edit']}: {line}")
    return found


def function_of(path):
    """the function whose proof a file is, or the cycle of calls, chain/+from_section; "" if it is no such file"""
    match = re.fullmatch(r"proofs/(.+)/(Answers|Invariants|Proof)\.antt", path)
    return match[1].replace("/+", "/").lstrip("+").replace("/", "::") if match else ""


def in_cycle(goal, function, texts):
    """the goal and its function where several call each other and are proved together: a goal's name begins with its function's then"""
    for text in texts.values():
        for cycle, name in re.findall(r"^#\[cycle\((\w+)\)\](?:\n#\[.*)*\n.*\bfn (\w+)", text, re.MULTILINE):
            *modules, last = function.split("::")
            if last in (cycle, name) and goal.startswith(f"{name}-"):
                return goal.removeprefix(f"{name}-"), "::".join([*modules, name])
    return goal, function


def function_at(path, text, row):
    """the function that a line of a source stands in, by its path in the crate; "" if it stands in none"""
    modules = [] if path in ("src/lib.rt", "src/main.rt") else path.removeprefix("src/").removesuffix(".rt").split("/")
    lines, block, began = text.split("\n"), "", 0
    for number, line in enumerate(lines, 1):
        impl = re.match(r"impl(?:<[^>]*>)? (?:[\w:<>]+ for )?(\w+)", line)
        block = impl[1] if impl else "" if line == "}" else block
        if not re.match(r" *(#\[|//)", line):
            match = re.match(r'( *)(?:pub(?:\([a-z]+\))? )?(?:(?:const|unsafe|extern "C") )*fn (\w+)', line)
            if match:
                end = next(at for at, other in enumerate(lines[number - 1 :], number) if other == match[1] + "}" or at == number and other.endswith("}"))
                if (began or number) <= row <= end:
                    return "::".join([*modules, *([block] if block else []), match[2]])
            began = 0
        else:
            began = began or number
    return ""


def in_words(goal, function, texts):
    goal, function = in_cycle(goal, function, texts)
    for pattern, words in WORDS:
        if re.fullmatch(pattern, goal):
            return f"`{function}`: {words} (`{goal}`)"
    return ""


def declared_as(fact, text):
    """how a file of a proof, of laws or of samples states a fact; "" if it states none of that name"""
    match = re.search(rf"^ *(?:(?:pub|abbrev|unfoldable) )*{re.escape(fact)} :(.*)", text, re.MULTILINE)
    return match[0] if match else ""


def noted(match, texts):
    """the fact of a note: a goal that the prover was to close by itself"""
    function = function_at(match["path"], texts.get(match["path"], ""), int(match["row"]))
    goal = GOAL.fullmatch(match["what"])
    return in_words(goal["goal"], function, texts) if function and goal and goal["end"] else ""


def erred(match, texts, crate):
    """the fact of an error in a file of proofs"""
    path, fact = match["path"], match["fact"]
    stated = declared_as(fact, texts.get(path, ""))
    if not stated or not REFUSED.fullmatch(match["why"]):
        return ""
    if function_of(path):
        goal = re.search(r": goal\.([\w'-]+)", stated)
        return in_words(goal[1], function_of(path), texts) if goal else f"`{function_of(path)}`: a lemma of its proof (`{fact}`)"
    if re.fullmatch(r"proofs/\w+\.antt", path):
        return f"{'sample' if path == 'proofs/Samples.antt' or crate == 'samples' else 'law'} `{fact}`"
    return ""


def refused_fact(file, texts, told):
    """the first fact that the prover refused, in words; texts are the crate's, with the edit"""
    crate = crate_of(file)
    what = told[crate, file.stem]
    refused = AS_IT_MUST.fullmatch(what)
    if not refused:
        raise (Wrong if re.match("NOT REFUSED|BAD EDIT|refused", what) else Missing)(f"{shown(file)}: rt says: {what}")
    line = refused["line"]
    match = NOTE.fullmatch(line)
    words = noted(match, texts) if match else ""
    match = ERROR.fullmatch(line)
    words = erred(match, texts, crate) if match else words
    if not words:
        raise Wrong(f"{shown(file)}: tests/wrong_programs.py has no words for what refuses it: {line}")
    return words


# ── the file


def rows(told):
    """each edit's crate and its row"""
    edits = [(file, *read_edit(file)) for file in edit_files()]
    missing = [file for file, _, _ in edits if (crate_of(file), file.stem) not in told]
    if missing:
        raise Missing(f"rt tells nothing of {len(missing)} of {len(edits)} edits (the first: {shown(missing[0])})")
    for file, breaks, exchanges in edits:
        breaks = breaks.replace("|", "\\|")
        yield crate_of(file), f"| `{file.stem}` | {breaks} | {refused_fact(file, edited(file, exchanges), told)} |\n"


def document(told):
    text, last = INTRODUCTION, ""
    for crate, row in rows(told):
        if crate != last:
            text += f"\n## {crate}\n\n{HEAD}"
        text += row
        last = crate
    return text


def check(made):
    stored = STORED.read_text(encoding="utf-8") if STORED.is_file() else ""
    differences = list(difflib.unified_diff(stored.splitlines(), made.splitlines(), n=0, lineterm=""))[2:]
    for line in differences:
        if not line.startswith("@@"):
            print(line)
    if stored != made:
        raise Wrong(f"{shown(STORED)} differs (- stored, + made): look at it, then run `python3 tests/wrong_programs.py`")


def main(words):
    checks = words[:1] == ["--check"]
    files = words[checks:]
    if len(files) > 1 or any(name.startswith("-") for name in files):
        print("usage: wrong_programs.py [--check] [SAID]")
        return 2
    try:
        said = pathlib.Path(files[0]).read_text(encoding="utf-8") if files else said_by_rt()
        made = document(told_of(said))
        if checks:
            check(made)
        else:
            STORED.write_text(made, encoding="utf-8")
        print(f"{shown(STORED)}: {made.count(chr(10) + '| `')} edits, {'as stored' if checks else 'written'}")
    except (Wrong, Missing) as trouble:
        print(f"wrong_programs: {trouble}")
        return 1 if isinstance(trouble, Wrong) else 2
    return 0


if __name__ == "__main__":
    sys.exit(main(sys.argv[1:]))
