#!/usr/bin/env python3
"""respell.py: brings the repository's own definitions and lemmas to the spelling of today's Rattle; run once, at the top, right after the kit's port.py.

Words are in snake case, types and facts in camel case; a dash joins two names, and a plain word is added with an underscore.
Names of src/ (functions, fields, constants, types), strings, inputs and outputs keep their spelling. With --list it only prints the table.
Where a new name would be one that stands already, the table SETTLED below says what to take; without a line there the script stops."""
import glob, os, re, sys

TOKEN = r"[A-Za-z_ℕ𝓤][A-Za-z0-9_'ℕ≡₀₁₂₃]*(?:-[A-Za-z0-9_'ℕ≡+*]+)*"
HEAD = re.compile(r"^(\s*)((?:(?:pub|abbrev|unfoldable)\s+)*)(data\s+|record\s+|ruleset\s+|mod\s+)?(" + TOKEN + r")((?:\s*[{(][^:]*)?)\s*:\s(.*)")
RULES = re.compile(r"^\s*pub ruleset (" + TOKEN + r") =|^\s*ruleset (" + TOKEN + r") =")
LIBRARY = set("""length take drop set get_or append replicate map min max sum sum_by fold filter reverse list_all nil cons eqb leb ltb
add sub mul div mod suc zero le lt eq ap refl sym true false nth slice_index concat""".split())

# old name -> new, where the rule's own answer stands already or reads as another thing
SETTLED = {}
here = os.path.dirname(os.path.abspath(__file__))
table = os.path.join(here, "respelled-by-hand.txt")
if os.path.exists(table):
    for line in open(table):
        line = line.split("#")[0].split()
        if line:
            SETTLED[line[0]] = line[1]


def snake(word):
    word = re.sub(r"([a-z0-9])([A-Z]+)(?=[A-Z][a-z])", r"\1_\2_", word)
    word = re.sub(r"([a-z0-9])([A-Z])", r"\1_\2", word)
    word = re.sub(r"([A-Z])([A-Z][a-z])", r"\1_\2", word)
    return word.lower()


def files(*patterns):
    for p in patterns:
        yield from sorted(glob.glob(p, recursive=True))


ANTT = list(files("crates/*/specs/*.antt", "crates/*/proofs/*.antt", "crates/*/proofs/**/*.antt"))
ANTT = list(dict.fromkeys(ANTT))
RT = list(files("crates/*/src/*.rt"))
EDITS = list(files("crates/*/must-fail/**/*.edit"))
PAGES = list(files("docs/**/*.md", "README.md", "compare/*.md"))

kind = {}  # name -> 'type' | 'def' | 'lemma' | 'field'
for path in ANTT:
    specs = "/specs/" in path
    goals = path.endswith("Proof.antt")
    lines = open(path).read().split("\n")
    inside = None
    for line in lines:
        if re.match(r"^(pub |abbrev |unfoldable )*(data|record) ", line):
            inside = line
        elif line and not line[0].isspace():
            inside = None
        r = RULES.match(line)
        if r:
            kind.setdefault(r.group(1) or r.group(2), "def")
            continue
        m = HEAD.match(line)
        if not m:
            continue
        space, words, special, name, args, rest = m.groups()
        if special and special.startswith(("mod", "use")):
            continue
        if special and special.startswith(("data", "record")):
            kind[name] = "type"
            continue
        if space and not (words or inside):
            continue
        if goals and (rest.startswith("tie.") or name.endswith(("-spec", "_spec")) or re.search(r"\btie\.|\blts\b|-lts\.", rest)):
            continue
        if inside and space:
            kind.setdefault(name, "field")
            continue
        fact = re.search(r"Type 0\s*$", rest) and "def" != "x"
        if fact:
            kind[name] = "type"
        elif "abbrev" in words or "unfoldable" in words or specs:
            kind[name] = "def"
        else:
            kind.setdefault(name, "lemma")

names = set(LIBRARY) | {n for n, k in kind.items() if k in ("def", "type", "field") and "-" not in n}


def respelled(name):
    if name in SETTLED:
        return SETTLED[name]
    k = kind[name]
    if k == "type":
        base = name.replace("-", "_")
        if "_" in base and not base[0].isupper():
            return "".join(w[:1].upper() + w[1:] for w in base.split("_"))
        return base[0].upper() + base[1:]
    parts = name.split("-")
    out = parts[0] if parts[0] in kind and kind[parts[0]] == "type" else snake(parts[0])
    i = 1
    prev = parts[0]
    while i < len(parts):
        p = parts[i]
        join = "-" if k == "lemma" and prev in names and p in names else "_"
        out += join + (p if p in kind and kind[p] == "type" else snake(p))
        prev = p
        i += 1
    return out


change = {}
for name in kind:
    if name[0].isupper() or name == "alike":
        continue
    new = respelled(name)
    if new != name:
        change[name] = new

# words that stand already, in specs, proofs and src
word = re.compile(r"(?<![A-Za-z0-9_'\-ℕ])" + TOKEN)
stands = {}
for path in ANTT + RT:
    text = open(path).read()
    if path.endswith(".rt"):
        text = re.sub(r"//.*", "", text)
    else:
        text = re.sub(r"--.*", "", text)
    for t in word.findall(text):
        stands.setdefault(t, set()).add(path)
FNS = set()
for path in RT:
    FNS |= set(re.findall(r"\bfn (\w+)", open(path).read()))
bad = 0
back = {}
for old, new in sorted(change.items()):
    if new in back:
        print("TOGETHER", old, back[new], "->", new)
        bad += 1
    back[new] = old
    if new in kind and new not in change and old not in SETTLED:
        print("STANDS (defined)", old, "->", new)
        bad += 1
    elif new in stands and old not in SETTLED:
        where = stands[new]
        antt = [p for p in where if p.endswith(".antt")]
        rt = [p for p in where if p.endswith(".rt")]
        if rt and new in FNS and not antt:
            continue
        print("STANDS", old, "->", new, "fn" if new in FNS else "", len(antt), len(rt), (antt + rt)[:2])
        bad += 1
if "--list" in sys.argv:
    for old, new in sorted(change.items()):
        print(kind[old], old, new)
    sys.exit()
if bad and "--anyway" not in sys.argv:
    sys.exit("respell: %d names would fall together: settle them in tools/respelled-by-hand.txt" % bad)

LEFT, RIGHT = r"(?<![A-Za-z0-9_'\-·])", r"(?![A-Za-z0-9_'\-]|·)"
pattern = re.compile(LEFT + "(" + "|".join(re.escape(n) for n in sorted(change, key=len, reverse=True)) + ")" + RIGHT)
camel = {o: n for o, n in change.items() if "-" in o or re.search(r"[a-z0-9][A-Z]", o)}
narrow = re.compile(LEFT + "(" + "|".join(re.escape(n) for n in sorted(camel, key=len, reverse=True)) + ")" + RIGHT)
plain = {o: n for o, n in camel.items() if "-" not in o}
comments = re.compile(LEFT + "(" + "|".join(re.escape(n) for n in sorted(plain, key=len, reverse=True)) + ")" + RIGHT)


def by_lines(text, mark, pat):
    """In a comment only the names with no dash, and those between backticks: a dash there is mostly a word's own."""
    out = []
    for line in text.split("\n"):
        at = re.search(mark, line)
        code, said = (line[: at.start()], line[at.start() :]) if at else (line, "")
        said = re.sub(r"`[^`]+`", lambda m: m.group(0) if m.group(0) == "`more-follows`" else narrow.sub(lambda n: change[n.group(1)], m.group(0)), said)
        out.append(pat.sub(lambda m: change[m.group(1)], code) + comments.sub(lambda m: change[m.group(1)], said))
    return "\n".join(out)


turned = 0
for path in ANTT + RT + EDITS + PAGES:
    text = open(path).read()
    if path.endswith(".md"):
        # only between backticks
        new = re.sub(r"`[^`\n]+`", lambda m: m.group(0) if "more-follows" in m.group(0) else narrow.sub(lambda n: change[n.group(1)], m.group(0)), text)
    elif path.endswith(".antt"):
        new = by_lines(text, r"(^|\s)--( |$)", pattern)
        if path.startswith("crates/pinned/"):
            new = re.sub(LEFT + "alike" + RIGHT, "IsAlike", new)
    else:
        new = by_lines(text, r"//" if path.endswith(".rt") else r"^#", narrow)
    if new != text:
        open(path, "w").write(new)
        turned += 1
print("respell: %d names, %d files" % (len(change), turned))
