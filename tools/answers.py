#!/usr/bin/env python3
"""answers.py CRATE [FUNCTION..]: turns an older Proof.antt of a crate into Invariants.antt and Answers.antt.

Run at the top of the repository. It asks `rt check --generated DIR --old-names` for the old and new name of each goal, place and loop, keeps the
answers that are more than a search, and takes Proof.antt away. What it cannot tell it leaves behind '-- ?'. A start for the hand, not a verdict."""
import glob, json, os, re, subprocess, sys, tempfile

crate = sys.argv[1]
only = set(sys.argv[2:])
root = os.getcwd()
folder = os.path.join(root, "crates", crate)
out = tempfile.mkdtemp(prefix="names-" + crate + "-")
done = subprocess.run(["rt", "check", "--generated", out, "--old-names"], cwd=folder, capture_output=True, text=True)
try:
    names = json.load(open(os.path.join(out, "names.json")))
except OSError:
    sys.exit("no names.json: " + (done.stdout + done.stderr)[-800:])


def norm(n):
    n = n.replace("_", "-")
    n = re.sub(r"^overflow-", "", n)
    n = n.replace("shared-slice-read", "slice-read").replace("shared-slice-known", "slice-known")
    n = re.sub(r"(?<=[a-z])(\d+)$", r"-\1", n) if False else n
    return n


def chunks(text):
    """The top-level pieces of a file: lines, each with the comments before it."""
    out, now, head = [], [], False
    for line in text.split("\n"):
        starts = bool(line) and not line[0].isspace()
        if starts and line.startswith("--"):
            if head and now:
                out.append(now)
                now, head = [], False
            now.append(line)
            continue
        if starts and re.match(r"(pub |abbrev |unfoldable )*[^\s:]+ *(\{[^}]*\} *|\([^)]*\) *)*:( |$)", line) or line.startswith(("use ", "record ", "data ", "pub record", "pub data", "module ")):
            if head and now:
                out.append(now)
                now = []
            now.append(line)
            head = True
            continue
        now.append(line)
    if now:
        out.append(now)
    return out


LEFT, RIGHT = r"(?<![A-Za-z0-9_'\-.ℕ])", r"(?![A-Za-z0-9_'\-ℕ₀])"


def converts(path, key, lts):
    text = open(path).read()
    needs = {norm(o): n for o, n in lts["needs"]}
    steps, fields = {}, {}
    for place in lts["places"]:
        pair = place[2]
        if pair and pair[0]:
            steps.setdefault(pair[0].replace("_", "-"), pair[1])
    for arm in lts["arms"]:
        if not arm:
            continue
        for new, old, way in arm[2]:
            fields.setdefault((old.replace("_", "-"), tuple(way)), (arm[0], new))
    loops = [(l[0][0], l[0][1], l[1]) for l in lts["loops"]]
    uses, invs, answers, helpers, title = [], [], [], [], []
    said = []

    def flat(k):
        k = re.sub(r"_lem$", "", k)
        k = re.sub(r"(?<=[a-z])(\d+)$", r"-\1", k)
        return re.sub(r"[_\-]Is(?=[A-Z])", "_", k).replace("-", "_").lower()

    byflat = {}
    for k, v in steps.items():
        byflat.setdefault(flat(k), v)
    asks = {}
    for place, clause in zip(lts["places"], lts["clauses"]):
        if clause and place[2] and place[2][1]:
            asks[place[2][1]] = clause["fields"]

    def way(i, n):
        return ".1" * i + (".0" if i < n - 1 else "")

    def turned(name, expr_fields, body):
        """NAME.0 and the like, where NAME is a record of the clauses."""
        n = len(expr_fields)
        if n == 1:
            return re.sub(re.escape(name) + r"(?![\w\-.'])|" + re.escape(name) + r"(?=\.(?!%s\b))" % expr_fields[0], name + "." + expr_fields[0], body)
        for i in sorted(range(n), key=lambda i: -len(way(i, n))):
            body = re.sub(re.escape(name + way(i, n)) + r"(?![\w\-'])", name + "." + expr_fields[i], body)
        return body

    spots = {o[0]: n for o, n in zip(lts["places"], lts["places_by_name"])}

    def goes(body):
        chained = set(re.findall(r"(?<![\w.'\-])(\w+'?)\.before\b", body)) - {"goal", "tie"}
        chained |= set(re.findall(r"\((\w+'?) : tie\.", body))
        body = re.sub(r"\btie\.([\w\-+]+)", lambda m: "goal." + spots.get(m.group(1), spots.get(m.group(1).replace("-", "_"), m.group(1))), body)
        body = re.sub(r"\.before(?![\w\-])", "", body)
        # arms: STEP.given.a.b
        def arm(m):
            pre, step, way_ = m.group(1), m.group(2), tuple(m.group(3).strip(".").split("."))
            for k in (step.replace("_", "-"), flat(step).replace("_", "-")):
                for n in range(len(way_), 0, -1):
                    hit = fields.get((k, way_[:n]))
                    if hit:
                        rest = way_[n:]
                        return pre + "." + hit[0] + "." + hit[1] + "".join("." + w for w in rest)
            return m.group(0)
        body = re.sub(r"\b([a-z]\w*'?)\.([A-Za-z_][\w\-]*)((?:\.given(?:\.\d)*))(?![\w\-])", arm, body)
        roots = {"c"} | chained | set(re.findall(r"let (\w+'?) = c in", body))
        def step(m):
            pre, s = m.group(1), m.group(2)
            if pre not in roots:
                return m.group(0)
            k = s.replace("_", "-")
            return pre + "." + steps.get(k, byflat.get(flat(s), s))
        body = re.sub(r"(?<![\w\-.])([a-z]\w*'?)\.([A-Za-z_][\w\-]*)", step, body)
        body = re.sub(r"(\.args\.)([\w\-]+)", lambda m: m.group(1) + m.group(2).replace("-", "_"), body)
        for new in sorted(asks, key=len, reverse=True):
            for r in roots:
                body = turned(r + "." + new + ".ensures", asks[new], body)
                for v in re.findall(r"let (\w+'?) = " + re.escape(r + "." + new + ".ensures") + r" in", body):
                    body = re.sub(r"(?<![\w.'\-])" + v + r"(?=\.)", "@@" + v, body)
                    body = turned("@@" + v, asks[new], body).replace("@@", "")
        return body

    def as_record(names_, body):
        """The last expression of a body, a tuple, as the record of its clauses."""
        depth, last = 0, 0
        where_ = re.search(r"\n\s+where\b", body)
        tail_ = ""
        if where_:
            body, tail_ = body[: where_.start()], body[where_.start():]
        for m in re.finditer(r"[()\[\]{}]|\bin\b", body):
            t = m.group(0)
            if t in "([{":
                depth += 1
            elif t in ")]}":
                depth -= 1
            elif depth == 0:
                last = m.end()
        head, expr = body[:last], body[last:].strip()
        n = len(names_)

        def parts(e):
            e = e.strip()
            if not (e.startswith("(") and e.endswith(")")):
                return [e]
            d, out_, now_ = 0, [], ""
            for i, ch in enumerate(e):
                if ch in "([{":
                    d += 1
                elif ch in ")]}":
                    d -= 1
                    if d == 0 and i < len(e) - 1:
                        return [e]
                if ch == "," and d == 1:
                    out_.append(now_.strip())
                    now_ = ""
                elif not (i == 0 or i == len(e) - 1):
                    now_ += ch
            out_.append(now_.strip())
            return out_

        got = parts(expr)
        while 1 < len(got) < n:
            more = parts(got[-1])
            if len(more) == 1:
                break
            got = got[:-1] + more
        lead = None
        if len(got) == 1 and re.match(r"(rw|simp) ", expr) and expr.endswith(")"):
            d = 0
            for i in range(len(expr) - 1, -1, -1):
                d += (expr[i] in ")]}") - (expr[i] in "([{")
                if d == 0:
                    break
            inner = parts(expr[i:])
            while 1 < len(inner) < n:
                more = parts(inner[-1])
                if len(more) == 1:
                    break
                inner = inner[:-1] + more
            if len(inner) == n and i > 3:
                lead = expr[:i].strip()
                got = ["%s (%s)" % (lead, p) for p in inner]
        if len(got) == n:
            pass
        elif len(got) == 1:
            if expr in ("search rules",):
                return body + tail_
            got = ["(%s)%s" % (expr, way(i, n)) for i in range(n)]
        else:
            return body + tail_
        return head + (" " if head else "") + "record { " + "; ".join("%s = %s" % p for p in zip(names_, got)) + " }" + tail_

    for chunk in chunks(text):
        code = [l for l in chunk if not l.startswith("--")]
        comments = [l for l in chunk if l.startswith("--")]
        body = "\n".join(code).strip("\n")
        if not body:
            title += comments
            continue
        if body.startswith("use "):
            title += comments
            if ".Statement." in body or ".Tie as tie" in body or "lts" in body and " as " in body:
                continue
            uses.append(body)
            continue
        m = re.match(r"(?:pub |abbrev |unfoldable )*(\S+) : tie\.(invariant|InvT|decreases|MeasureT)-(\S+)", body)
        if m:
            which = "invariant" if m.group(2) in ("invariant", "InvT") else "decreases"
            old = m.group(3)
            hit = [l for l in loops if l[0] == old or l[0].replace("_", "-") == old.replace("_", "-")]
            if not hit and len(loops) == 1:
                hit = loops
            eq = re.search(r"^%s (.*?)=\s*(.*)" % re.escape(m.group(1)), body, re.S | re.M)
            if not hit or not eq:
                said.append("loop " + old)
                invs.append("-- ? " + body.replace("\n", "\n-- ? "))
                continue
            args, rhs = eq.group(1).split(), eq.group(2)
            lname, vars_ = hit[0][1], hit[0][2]
            changed = lts["changed"][loops.index(hit[0])]
            want = [("l.initial." if c else "l.") + v for v, c in zip(vars_, changed)] + ["l." + v for v, c in zip(vars_, changed) if c]
            if len(args) != len(want):
                said.append("args of %s: %s / %s" % (lname, args, want))
            sub = dict(zip(args, want))
            pat = re.compile(LEFT + "(" + "|".join(re.escape(a) for a in sorted(sub, key=len, reverse=True)) + ")" + RIGHT)
            rhs = pat.sub(lambda k: sub[k.group(1)], rhs)
            rhs = re.sub(r" \.(?=\w)", ".", rhs)
            invs.append("abbrev pub %s-%s : goal.%s-%s\n%s-%s l = %s" % (which, lname, which, lname, which, lname, rhs.strip()))
            continue
        m = re.match(r"(?:pub |abbrev )*(\S+) : tie\.Need-(\S+)(.*)", body)
        if m:
            name, need = m.group(1), m.group(2)
            eq = re.search(r"^%s (.*?)=\s*(.*)" % re.escape(name), body, re.S | re.M)
            rhs = eq.group(2).strip() if eq else ""
            if rhs in ("search rules", "search needs"):
                continue
            if re.fullmatch(r"\((search rules(, )?)+\)", rhs):
                continue
            new = needs.get(norm(need))
            unf = re.findall(r"^unfolding .*$", body, re.M)
            text_ = goes(rhs)
            clauses_ = lts["asked"].get(next((o for o, n in lts["needs"] if norm(o) == norm(need)), ""), [])
            if len(clauses_) > 1:
                text_ = as_record(clauses_, text_)
            if not new:
                said.append("goal " + need)
                answers.append("-- ? %s\n%s" % (need, "\n".join("-- ? " + l for l in (unf + ["c = " + text_] ) for l in l.split("\n"))))
                continue
            answers.append("\n".join(["pub %s : goal.%s" % (new, new)] + unf + ["%s c =%s%s" % (new, "\n    " if "\n" in text_ and not text_.startswith("\n") else " ", text_)]))
            continue
        if re.match(r"(?:pub )?\S*[-_]spec : ", body) or "tie.close" in body:
            continue
        helpers.append("\n".join(comments + [goes(body) if re.search(r"\.before\b|\btie\.", body) else body]))
    short = [u for u in uses]
    mod = key.replace("Rattle-%s-proofs." % crate, "")[: -len(".Lts")]

    def prune(parts):
        joined = "\n".join(parts)
        toks = set(re.findall(r"[^\s(){},;]+", re.sub(r"[.]", " ", joined))) | set(re.findall(r"[^\s(){},;]+", joined))
        kept = []
        for u in short:
            m = re.match(r"use (\S+)\.\{(.*)\}$", u, re.S)
            if not m:
                kept.append(u)
                continue
            items = [i.strip() for i in m.group(2).replace("\n", " ").split(",") if i.strip()]
            keep = []
            for i in items:
                bare = i.split(" as ")[-1].strip()
                ops = bare.replace("◌", "")
                if bare in toks or ("◌" in bare and ops in toks) or re.search(LEFT + re.escape(bare) + RIGHT, joined) or ("◌" in bare and ops in joined):
                    keep.append(i)
            if keep:
                kept.append("use %s.{%s}" % (m.group(1), ", ".join(keep)))
        return kept
    where = os.path.dirname(path)
    wrote = []
    if invs:
        t = "\n".join(title + prune(invs) + ["use Rattle.%s.proofs.%s.Given as goal" % (crate, mod), ""] ) + "\n" + "\n\n".join(invs) + "\n"
        open(os.path.join(where, "Invariants.antt"), "w").write(t)
        wrote.append("Invariants")
    if answers:
        t = "\n".join(title + prune(helpers + answers) + ["use Rattle.%s.proofs.%s.Goals as goal" % (crate, mod), ""]) + "\n" + "\n\n".join(helpers + answers) + "\n"
        open(os.path.join(where, "Answers.antt"), "w").write(t)
        wrote.append("Answers")
    os.remove(path)
    print(mod, ":", " ".join(wrote) or "nothing left", ("; by hand: " + "; ".join(said)) if said else "")


for path in sorted(glob.glob(os.path.join(folder, "proofs", "**", "Proof.antt"), recursive=True)):
    rel = os.path.relpath(os.path.dirname(path), os.path.join(folder, "proofs")).replace("/", ".")
    if only and rel not in only:
        continue
    key = "Rattle-%s-proofs.%s.Lts" % (crate, rel)
    if key not in names:
        print(rel, ": no names yet")
        continue
    try:
        converts(path, key, names[key])
    except Exception as e:
        print(rel, ": FAILED", repr(e))
