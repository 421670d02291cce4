#!/usr/bin/env python3
"""Holds the papers to the crates. Run at the repository's top, with no arguments; prints what is amiss and ends with status 1 then.

1. Whatever the contract of an operation leads to, definition by definition, stands in a file that docs/PROMISES.md lists under
   "What must be believed"; so does whatever a promised record (Demand1, ..) leads to. Every listed file is there.
2. Every must-fail edit says what it breaks and where it answers wrongly (`breaks:`, `wrong on:`), and is cited in docs/PROMISES.md
   as CRATE/EDIT; every edit cited there exists.
3. Every name in backquotes in docs/PROMISES.md exists: as a definition, field, function or file of the crates, or, word by
   word, in their text.
4. The numbers in force are the same in docs/RULES.md, in the code, in the definitions, for C, for Rust and for the scripts.
5. The refusals of docs/RULES.md and docs/SETTINGS.md are those of the code, of the table of definitions, of the header's table and of Rust's sentences; where there
   is an order, in the same order.

It reads the crates as text. `--edits` prints the edits with what each one breaks; `--believed` prints the files that must be believed, with their lines and those without comments and
imports, and the definitions in them that no promise leads to."""
import glob
import os
import re
import sys

PROMISES = "docs/PROMISES.md"
# Where promises begin: every exported function, and these of the programs' crates.
EXPORTS = "crates/houayletan_c/src/*.rt"
FUNCTIONS = [
    ("block_file", "read_file"), ("block_file", "write_file"), ("block_reading", "read_block"), ("report", "report"),
    ("shrinking", "answer"), ("shrink_program", "run_program"), ("evening_program", "run_program"), ("evening", "answer_evening"), ("evening", "store"),
]
NAME = re.compile(r"[^\s(){}\[\],;:«»λ.]+")
amiss = []


def text_of(path):
    with open(path, encoding="utf-8", errors="replace") as file:
        return file.read()


def imports(text, crate):
    """What a file brings in: name -> (crate, file, name there), for definitions of the repository's specs/ only."""
    found = {}
    for path, names in re.findall(r"^(?:ghost )?use Rattle\.(\S+?)\.\{([^}]*)\}", text, re.M | re.S):
        parts = path.split(".")
        owner = parts[0]
        if parts[1] != "specs" or "declared" in parts:
            continue
        for name in names.split(","):
            there, _, here = name.strip().partition(" as ")
            if there:
                found[here or there] = (owner, parts[-1], there)
    return found


def definitions(crate, path):
    """The definitions of a file: name -> the text of each, its signature and clauses; constructors and fields lead to their type."""
    text = text_of(path)
    body = "\n".join(line.split("--")[0] for line in text.split("\n") if not line.startswith(("use ", "pub mod ")))
    found, owner = {}, None
    for line in body.split("\n"):
        if not line.strip():
            continue
        head = re.match(r"(?:pub )?(?:record|data) (\S+)|(?:abbrev |unfoldable )?(?:pub )?(\S+) :", line)
        if head and not line.startswith((" ", "\t")):
            owner = head.group(1) or head.group(2)
            found.setdefault(owner, "")
        elif owner and re.match(r"  (?:pub )?(\S+) :", line) and re.search(rf"^(?:pub )?(?:record|data) {re.escape(owner)}\b", body, re.M):
            found[re.match(r"  (?:pub )?(\S+) :", line).group(1)] = owner
        if owner:
            found[owner] += line + "\n"
    return found, imports(text, crate)


specs = {}
for path in glob.glob("crates/*/specs/*.antt"):
    crate, name = path.split("/")[1], os.path.basename(path)[:-5]
    if name != "Lib":
        specs[crate, name] = definitions(crate, path)


def closure(start):
    """All definitions that these lead to."""
    seen, todo = set(), list(start)
    while todo:
        key = todo.pop()
        crate, file, name = key
        if key in seen or (crate, file) not in specs:
            continue
        own, brought = specs[crate, file]
        if name not in own:
            continue
        seen.add(key)
        for word in set(NAME.findall(own[name])):
            if word in brought:
                todo.append(brought[word])
            elif word in own and word != name:
                todo.append((crate, file, word))
    return seen


def contracts(path, function=None):
    """What the contracts of the exported functions of a source file, or of one of its functions, name."""
    text = text_of(path)
    brought = imports(text, path.split("/")[1])
    shape = rf"pub fn {function}\b" if function else r'pub extern "C" fn \w+'
    return [brought[word]
            for found in re.finditer(shape + r"((?:(?!\n\}).)*?)\n\{", text, re.S)
            for clause in re.split(r"\n +(?:ensures|requires)\b", found.group(1))[1:]
            for word in set(NAME.findall(clause)) if word in brought]


promises = text_of(PROMISES)
table = promises.split("## What must be believed")[1].split("\n## ")[0]
believed = set()
for cell in re.findall(r"^\| (crates/.*?) \|", table, re.M):
    folder = ""
    for item in re.split(r"[,;] ", cell):
        item = item.strip()
        folder = os.path.dirname(item) if "/" in item else folder
        path = os.path.join(folder, os.path.basename(item))
        if not os.path.isfile(path):
            amiss.append(f"{PROMISES}: what must be believed names {path}, which is not there")
        believed.add((path.split("/")[1], os.path.basename(path)[:-5]))

roots = []
for path in glob.glob(EXPORTS) or [EXPORTS]:
    found = contracts(path) if os.path.isfile(path) else []
    if not found:
        amiss.append(f"papers.py: no contract of an exported function was found in {path}")
    roots += found
for crate, function in FUNCTIONS:
    found = [root for path in glob.glob(f"crates/{crate}/src/*.rt") for root in contracts(path, function)]
    if not found:
        amiss.append(f"papers.py: no contract of {crate}::{function} was found")
    roots += found
# The records that PROMISES' page of the demands names are promises too.
page = promises.split("## The three demands")[1].split("\n## ")[0]
for word in re.findall(r"`(\w+)(?: [^`]*)?`", page):
    named = [(crate, file, word) for (crate, file), (own, _) in specs.items() if re.match(r"(pub )?record", own.get(word, ""))]
    roots += [key for key in named if key[:2] in believed] or named
led = closure(roots)
for crate, file, name in sorted(led):
    if (crate, file) not in believed and "\n" in specs[crate, file][0][name]:
        amiss.append(f"{PROMISES}: what must be believed lacks crates/{crate}/specs/{file}.antt, which has {name}")

# ---- edits
edits = {}
for path in glob.glob("crates/*/must-fail/*.edit"):
    edit = f"{path.split('/')[1]}/{os.path.basename(path)[:-5]}"
    edits[edit] = [re.findall(rf"^{key}: (.+)$", text_of(path), re.M) for key in ("breaks", "wrong on")]
    if not all(len(lines) == 1 for lines in edits[edit]):
        amiss.append(f"{path}: it doesn't say once what it breaks and once where it answers wrongly")
crates = {p.split("/")[1] for p in glob.glob("crates/*/src")}
cited = {c for c in re.findall(r"\b([a-z_]+/[a-z0-9]+(?:-[a-z0-9]+)*)\b(?!/|\.\w)", promises) if c.split("/")[0] in crates}
for edit in sorted(set(edits) - cited):
    amiss.append(f"{PROMISES}: {edit} is not cited")
for edit in sorted(cited - set(edits)):
    if not os.path.exists("crates/" + edit):
        amiss.append(f"{PROMISES}: {edit} is cited and is no edit")

# ---- names
sources = {p: text_of(p) for p in glob.glob("crates/**/*", recursive=True) if p.endswith((".rt", ".antt"))}
everything = "\n".join(sources.values()) + "\n".join(text_of(p) for p in glob.glob("crates/*/stdout") + glob.glob("include/*.h"))
words = set(NAME.findall(everything)) | set(re.findall(r"\w+", everything))
defined = set(re.findall(r"^\s*(?:abbrev |unfoldable )?(?:pub )?([^\s:]+) :", everything, re.M))
defined |= set(re.findall(r"\b(?:record|data|fn|struct|enum|const|mod) (\w+)", everything))
for quoted in set(re.findall(r"`([^`\n]+)`", promises)):
    if re.search(r"\.(rt|antt|sh|py|md|txt|h)$", quoted) or "/" in quoted:
        if not (os.path.exists(quoted) or glob.glob(f"crates/*/{quoted}") or "/" not in quoted or " " in quoted):
            amiss.append(f"{PROMISES}: `{quoted}` is not there")
    elif re.fullmatch(NAME, quoted):
        if quoted not in defined and quoted not in words:
            amiss.append(f"{PROMISES}: `{quoted}` is defined nowhere")
    else:
        for word in NAME.findall(quoted):
            if re.search(r"[A-Za-z]", word) and word not in words:
                amiss.append(f"{PROMISES}: {word} of `{quoted}` is nowhere in the crates")
for path in set(re.findall(r"\bcrates/[\w/.-]+\.(?:rt|antt)", promises)):
    if not os.path.isfile(path):
        amiss.append(f"{PROMISES}: {path} is not there")

# ---- numbers
# Each number's name in the files that may say it as a numeral: the code's, the definitions', C's, Rust's, the scripts' and the rules'.
RULES = "docs/RULES.md"
CODE, SAID, C, RUST, PYTHON = (r"const {} *: \w+ = (\d+);", r"^{} = (\d+)$", r"^#define {} (\d+)$", r"const {}: usize = (\d+);", r"^{} = (\d+)\b")
RULED = r"^\| {} \| ([\d,]+)(?: × [mn])? \|"
LIMITS, OUTSIDE = "crates/diagram/src/limits.rt", ("include/houayletan_limits.h", "bindings/rust/src/limits.rs", "tests/limits.py")
NUMBERS = [
    (LIMITS, "MAX_NODES", "crates/diagram/specs/Limits.antt", "max_nodes", "nodes of a diagram, at most", "HOUAYLETAN_NODES", "MOST_NODES", "MAX_NODES"),
    (LIMITS, "MAX_VARIABLES", "crates/diagram/specs/Limits.antt", "max_variables", "variables, at most", "HOUAYLETAN_VARS", "MOST_VARS", "MAX_VARS"),
    (LIMITS, "MAX_VARIABLES", "crates/diagram/specs/Limits.antt", "max_variables", "words of the output of `size_per_variable`"),
    (LIMITS, "ROOM_PER_NODE", "crates/diagram/specs/Limits.antt", "room_per_node", "words of working room", "HOUAYLETAN_ROOM_PER_NODE", "ROOM_PER_NODE", "ROOM"),
    ("crates/naturals/src/lib.rt", "WORDS", "crates/naturals/specs/Natural.antt", "word_count", "words of 32 bits in a count, least first", "HOUAYLETAN_COUNT_WORDS", "COUNT_WORDS", "COUNT"),
    ("crates/naturals/src/lib.rt", "WORDS", "crates/naturals/specs/Natural.antt", "word_count", "words of a weight output"),
    ("crates/pairs/src/table.rt", "PAIR_WORDS", "crates/pairs/specs/Pairs.antt", "pair_words", "words of the table of pairs, for each pair", "HOUAYLETAN_PAIR_WORDS", "PAIR_WORDS", "PAIR"),
    ("crates/pool/src/lib.rt", "SLOTS", "crates/pool/specs/Pool.antt", "slot_count", "slots of a pool", "HOUAYLETAN_SLOTS", "SLOTS", "SLOTS"),
    (LIMITS, "MAX_NODES", "crates/diagram/specs/Limits.antt", "max_nodes", "places of a pool's table, at most"),
    ("crates/blocks/src/layout.rt", "BLOCK", "crates/blocks/specs/Block.antt", "block_bytes", "bytes of a block", "HOUAYLETAN_BLOCK_BYTES", "BLOCK_BYTES", "BLOCK"),
    ("crates/blocks/src/layout.rt", "NODES", "crates/blocks/specs/Block.antt", "block_nodes", "nodes in a block, at most", None, None, "BLOCK_NODES"),
    ("crates/blocks/src/layout.rt", "MOST", "crates/blocks/specs/Block.antt", "max_stored", "nodes in a block file, at most", None, None, "FILE_NODES"),
    ("crates/blocks/src/layout.rt", "PLACE", "crates/blocks/specs/Block.antt", "place_bytes", "bytes of a node in a file", "HOUAYLETAN_BYTES_PER_NODE", "BYTES_PER_NODE", "NODE_BYTES"),
    (LIMITS, "MAX_NODES", "crates/diagram/specs/Limits.antt", "max_nodes", "nodes in a node file, at most"),
    # a target has as many words as a count, so that no count is out of its range
    ("crates/setting_blocks/src/layout.rt", "TARGET_WORDS", "crates/setting_blocks/specs/Settings.antt", "target_words", "words of 32 bits in a count, least first"),
    ("crates/setting_blocks/src/layout.rt", "NEWEST", "crates/setting_blocks/specs/Settings.antt", "newest", None, "HOUAYLETAN_SETTINGS_VERSION", "SETTINGS_VERSION", "SETTINGS_VERSION"),
]
for code, name, definitions_file, defined_as, ruled, *outside in NUMBERS:
    places = [(code, CODE, name), (definitions_file, SAID, defined_as)] + [(RULES, RULED, ruled)] * (ruled is not None)
    places += [(path, shape, there) for path, shape, there in zip(OUTSIDE, (C, RUST, PYTHON), outside) if there]
    found = {path: [numeral.replace(",", "") for numeral in re.findall(shape.format(there), text_of(path), re.M)] for path, shape, there in places}
    if any(len(numerals) != 1 or numerals != found[code] for numerals in found.values()):
        amiss.append(f"{name} of {code} is not one number everywhere: {found}")

# ---- refusals


def numbers(shape, text):
    """The numbers that a shape finds, each once, in their order."""
    return list(dict.fromkeys(int(number) for number in re.findall(shape, text, re.M)))


def section(text, heading):
    return text.split(f"\n## {heading}\n")[1].split("\n## ")[0]


ROW, VARIANT, NUMBER_OF = r"^\| (\d+) \| ", r"^    \w+ = (\d+),$", r"^number_of \w+ = (\d+)$"
ruled, compared, pooled, stored, filed = (
    numbers(ROW, section(text_of(RULES), heading))
    for heading in ("Refusals", "Two diagrams compared", "A pool", "Refusals of block files", "Refusals of node files")
)
# The refusals of settings are those of the paper that has their layout.
SETTINGS = "docs/SETTINGS.md"
settled = numbers(ROW, section(text_of(SETTINGS), "Refusals"))
own = ruled[:ruled.index(12) + 1]
variants = {name: int(number) for name, number in re.findall(r"^    (\w+) = (\d+),$", text_of("crates/diagram/src/refusal.rt"), re.M)}


def given(*names):
    """The numbers of the refusals that the code of these crates names."""
    code = "".join(text_of(path) for name in names for path in sorted(glob.glob(f"crates/{name}/src/*.rt")))
    return sorted({variants[name] for name in re.findall(r"\bRefusal::(\w+)", code) if name in variants})


every = sorted(set(ruled + compared + pooled + stored + filed + settled))
shown = ruled + compared + pooled + filed + [number for number in settled if number not in ruled]
for path, found, said in [
    ("crates/diagram/src/refusal.rt", sorted(numbers(VARIANT, text_of("crates/diagram/src/refusal.rt"))), every),
    ("crates/diagram/specs/Refusal.antt", sorted(numbers(NUMBER_OF, text_of("crates/diagram/specs/Refusal.antt"))), every),
    ("crates/diagram/specs/Verdict.antt", numbers(r"\brow (\d+) ", text_of("crates/diagram/specs/Verdict.antt")), own),
    ("crates/comparison/specs/Comparison.antt", numbers(r"\brow (\d+) ", text_of("crates/comparison/specs/Comparison.antt")), compared),
    ("crates/pool/specs/Answers.antt", numbers(r"\brow (\d+) ", text_of("crates/pool/specs/Answers.antt")), pooled[3:] + pooled[:1] + [5, 4]),
    ("crates/summary/specs/Kept.antt", numbers(r"\brow (\d+) ", text_of("crates/summary/specs/Kept.antt")), pooled[:3]),
    ("include/houayletan.h", numbers(r"^ \*   {,2}(\d+)   ", text_of("include/houayletan.h")), shown),
    ("bindings/rust/src/refusal.rs", sorted(numbers(r"^            (\d+) => ", text_of("bindings/rust/src/refusal.rs"))), sorted(shown)),
    ("crates/blocks, block_reading and block_file", sorted(set(given("blocks", "block_reading", "block_file")) - set(ruled)), sorted(set(stored) - set(ruled))),
    ("crates/node_file", sorted(set(given("node_file")) - set(ruled)), sorted(filed)),
    ("crates/setting_blocks", given("setting_blocks"), sorted(settled)),
    ("crates/node_file/specs/NodeFile.antt", numbers(r"\brow (\d+) ", text_of("crates/node_file/specs/NodeFile.antt")), filed[:-1] + ruled[:2] + filed[-1:]),
    ("crates/setting_blocks/specs/Settings.antt", numbers(r"\brow (\d+) ", text_of("crates/setting_blocks/specs/Settings.antt")), settled),
]:
    if found != said:
        amiss.append(f"{RULES} and {SETTINGS} have the refusals {said}, {path} has {found}")

if "--believed" in sys.argv:
    total = plain = 0
    for crate, file in sorted(believed):
        lines = text_of(f"crates/{crate}/specs/{file}.antt").rstrip("\n").split("\n")
        code = [line for line in lines if line.strip() and not line.startswith(("--", "use ")) and not line.strip().startswith("--")]
        total, plain = total + len(lines), plain + len(code)
        aside = [n for n, block in specs[crate, file][0].items() if (crate, file, n) not in led and "\n" in block]
        print(f"crates/{crate}/specs/{file}.antt: {len(lines)} lines, {len(code)} without comments and imports" + (f"; led to by no promise: {', '.join(aside)}" if aside else ""))
    print(f"{total} lines, {plain} without comments, imports and empty lines")
if "--edits" in sys.argv:
    for edit, (breaks, wrong) in sorted(edits.items()):
        print(f"{edit}\n    breaks {' '.join(breaks)}\n    wrong on {' '.join(wrong)}")
for line in amiss:
    print("papers:", line)
print(f"papers: {len(led)} definitions are led to, {len(edits)} edits, {len(amiss)} amiss")
sys.exit(1 if amiss else 0)
