"""Counts, in the source and proofs of the listed crates, the places that docs/DESIGN-PASS.md speaks of.

    python3 tools/design_counts.py [POINT]

With a point's number it lists the places. It goes by text, so it finds too much here and there; the page says what was kept.
"""
import collections
import difflib
import pathlib
import re
import sys

TOP = pathlib.Path(__file__).resolve().parent.parent


def crates():
    for line in (TOP / "crates.txt").read_text().splitlines():
        line = line.split("#")[0].strip()
        if line:
            yield line.split(":")[0].split()[0]


def sources():
    for name in crates():
        for path in sorted((TOP / "crates" / name / "src").rglob("*.rt")):
            yield name, path, path.read_text()


def functions():
    """Each function: crate, name, comment above, head (to the body), body."""
    for name, path, text in sources():
        for m in re.finditer(r"(?m)^( *)(?:#\[[^\n]*\]\n *)?(?:pub )?(?:extern \"C\" )?fn (\w+)", text):
            indent = m.group(1)
            end = re.compile(r"(?m)^%s}\n|^%s}$" % (indent, indent)).search(text, m.end())
            whole = text[m.start():end.end() if end else len(text)]
            b = re.search(r"(?m)^%s{$| {$" % indent, whole)
            head, body = (whole[:b.start()], whole[b.start():]) if b else (whole, "")
            above = text[:m.start()].rstrip("\n").split("\n\n")[-1]
            comment = " ".join(l.strip()[2:].strip() for l in above.split("\n") if l.strip().startswith("//"))
            yield name, m.group(2), comment, head, body


def parameters(head):
    """The parameters of a function's head, as texts."""
    depth, start, out = 0, None, []
    for k, ch in enumerate(head):
        if ch in "([<":
            if ch == "(" and depth == 0 and start is None:
                start = k + 1
            depth += 1
        elif ch in ")]>" and head[k - 1] not in "-=":
            depth -= 1
            if depth == 0 and ch == ")" and start is not None:
                out.append(head[start:k])
                break
        elif ch == "," and depth == 1 and start is not None:
            out.append(head[start:k])
            start = k + 1
    return [p.strip() for p in out if p.strip()]


def point_1():
    for name, path, text in sources():
        for m in re.finditer(r"(?m)^(?:pub )?enum (\w+) {\n((?:    [^\n]*\n)*)}", text):
            variants = [v for v in m.group(2).split("\n") if v.strip() and not v.strip().startswith("//")]
            if len(variants) == 2 and any("(" in v for v in variants):
                yield f"{name}: enum {m.group(1)} has the shape of Option or Result"
        for m in re.finditer(r"(?m)^(?:pub )?struct (\w+)(?:<[^>]*>)? {\n((?:    [^\n]*\n)*)}", text):
            if re.search(r": (bool|Verdict),", m.group(2)) and m.group(2).count("\n") > 1:
                yield f"{name}: struct {m.group(1)} is a flag with a value beside it"
        for m in re.finditer(r"(?m)^pub const (\w+): usize = \d+;", text):
            if int(re.search(r"= (\d+)", m.group(0)).group(1)) < 20:
                yield f"{name}: const {m.group(1)} numbers a kind"
    none = re.compile(r"\b(0|32|65,535|number of states|count|mark)\b[^.;:]*\b(for none|if (it is none|there is none)|where there is none|where none|for no \w+)")
    for name, fn, comment, head, body in functions():
        if none.search(comment) and re.search(r"-> \w", head):
            yield f"{name}: fn {fn} answers a number for none"
        if re.search(r"-> u8\n", head + "\n") and re.search(r"number", fn):
            yield f"{name}: fn {fn} numbers an enum"


def normal(body):
    return re.sub(r"\d+", "0", re.sub(r"[A-Za-z_]\w*", lambda m: m.group(0) if m.group(0) in KEYWORDS else "x", body)).split()


KEYWORDS = {"for", "in", "if", "else", "while", "return", "let", "mut", "match", "true", "false", "as", "loop", "break"}


def point_2():
    seen = []
    for name, fn, comment, head, body in functions():
        words = normal(body)
        if len(words) >= 14:
            seen.append((name, fn, words))
    for k, (c, f, w) in enumerate(seen):
        for d, g, v in seen[k + 1:]:
            if min(len(w), len(v)) / max(len(w), len(v)) > 0.85 and difflib.SequenceMatcher(None, w, v).ratio() > 0.93:
                yield f"{c}: fn {f} and {d}: fn {g}"


def point_3():
    for name, fn, comment, head, body in functions():
        for m in re.finditer(r"(?m)^ *(for \w+ in [^{\n]*\.\.[^{\n]*|while [^{\n]*) {", body):
            yield f"{name}: fn {fn}: {m.group(1).strip()}"


def point_4():
    for name, fn, comment, head, body in functions():
        if re.search(r"^(number|\w*_number|flag_of|lesser|\w+_told|copy_words|zero_words|store|fill|same_words|pairs_of|parent_of|action_of)$", fn):
            yield f"{name}: fn {fn}"


def point_5():
    for name, fn, comment, head, body in functions():
        n = len(parameters(head))
        if n > 7:
            yield f"{name}: fn {fn} has {n} parameters"


def point_6():
    pairs = [r"\bacts: &\[u8\],\s+count: usize", r"\bedges: &(?:mut )?\[u8\],\s+(?:ends|stops): &(?:mut )?\[usize\]",
             r"\bplan: &mut \[u8\],\s+total: usize", r"\btight: &(?:mut )?\[u8\],\s+stops: &(?:mut )?\[usize\]", r"\bbase: usize,\s+n: usize", r"\bpairs: &(?:mut )?\[u8\],\s+at: usize",
             r"\bsizes: &(?:mut )?\[u8\],\s+factors: &(?:mut )?\[u8\]", r"\bhandling: &(?:mut )?\[u16\],\s+distance: &(?:mut )?\[u16\]", r"\bmoves: &\[u16\],\s+at: usize"]
    for name, fn, comment, head, body in functions():
        for p in pairs:
            m = re.search(p, head)
            if m:
                yield f"{name}: fn {fn}: " + re.sub(r"\s+", " ", m.group(0))


def point_7():
    for name, fn, comment, head, body in functions():
        if re.search(r"\bfn\(|: \[fn", head) or re.search(r"\bmatch (step|turn|phase|stage)\b", body):
            yield f"{name}: fn {fn}"


def point_8():
    for name in crates():
        for path in sorted((TOP / "crates" / name / "proofs").rglob("*.antt")):
            lets = collections.Counter(l.strip() for l in path.read_text().split("\n") if l.strip().startswith("let ") and len(l) > 60)
            for line, n in lets.items():
                if n > 2:
                    yield f"{path.relative_to(TOP / 'crates')}: {n} times: {line[:70]}.."


def main():
    points = [point_1, point_2, point_3, point_4, point_5, point_6, point_7, point_8]
    if len(sys.argv) > 1:
        places = list(points[int(sys.argv[1]) - 1]())
        print("\n".join(places))
        print(len(places))
        return
    for k, point in enumerate(points, 1):
        print(k, sum(1 for _ in point()))


if __name__ == "__main__":
    main()
