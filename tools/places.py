#!/usr/bin/env python3
"""Lists places in crates/*/src/**/*.rt, and answers in crates/*/proofs, that one of eight points may be about.

usage: python3 tools/places.py            run at the top: a heading for each point, then a line for each place
       python3 tools/places.py --counts   the headings only, each with a count for each rule

What is found are candidates, not verdicts: the rules match text (comments and strings taken out, contracts and ghost
items told apart from code) and know nothing of types. A place is a line, or a function or struct by its line; what two
rules find stands under each. Code under #[cfg(test)] counts like any other. "But for names": a placeholder for each.

1a  an enum of the shape of Option (one variant bare, one with a payload) or of Result (two with one payload each)
1b  a struct with a bool beside other fields
1c  a function that answers an integer and is called number, code, kind, refusal or letter, or is `self as u..`
1d  Err(NUMBER), Err(CONSTANT), or a type Result<_, u..>
1e  a test against a sentinel: ==/!= Stamp::NONE, .number ==/!=/> 0, or a match with an arm None => Stamp::NONE
2a  functions of one name in several impls or files; what `impl Trait for` asks for, and main, left out
2b  function bodies of three lines or more that are equal but for names
2c  structs whose fields have the same types but for constants
2d  functions without code whose ensures are equal but for names
3a  while loops that compare a counter and step it by 1
3b1 for x in A..B with x in an index; 3b2 with x in none (and what method of self gets x); 3c while let Some(..)
4a  impls by hand of traits that can be derived
4b  lines that compare .number or .ticks, or take max or min of one
4c1 new, make, parts, check_*, from_* that answer a Result; 4c2 number, letter, refusal, to_*, as_*, into_* from self
    to another type; in both, what `impl Trait for` asks for left out
4d  a match with an arm Ok(x) => x, Ok(x) => Ok(x), Ok(()) => Ok(()), Some(v) => v.field or Err(_) => None
4e  functions that print in a match, or are called tell, tell_*, show or show_*
5a1 requires that three functions or more share, parameters (with .now, .old, .new) written _; 5a2 heads that stand in
    the requires of three or more: InAskRange, InPutRange, is_version .. ≡ true, < keys, < sites
5b  functions with two parameters (names and types) that three functions or more have together
6a  structs with an array and a len or count
6b1 structs with two arrays of one length constant, where a struct of one array and no more stands for its array
6b2 structs with an array by site; 6b3 structs (one level down too) and functions in which two such meet
6c  [X; N] where X is a record made up on the spot
6d  fields next, prev, parent, index of type usize or u32
7   fn pointers, dyn, Box, lists of functions, and match/if on a parameter mode, kind, step, which or op around a call
8a  answers (pub NAME : goal.NAME) in Answers.antt; 8b Proof.antt files; 8c files proofs/*.antt and specs/*.antt where
    a pub definition uses omega, search, grind, simp, rw or cc; 8d answers whose text right of the = stands three
    times or more in a crate; --counts adds the lines of proofs/ and specs/
"""
import glob
import itertools
import re
import sys
from collections import Counter, defaultdict
from types import SimpleNamespace as Record

LEX = re.compile(r"//[^\n]*|/\*.*?\*/|\"(?:[^\"\\]|\\.)*\"|(?<![\w'])b?'(?:\\.|[^\\'\n])'", re.S)
CLAUSE = re.compile(r"\s*(requires|ensures|decreases)\b\s*[\w'-]*\s*(?=\{)")
KEPT = set("as break const continue crate else false fn for if impl in let loop match mod move mut pub ref return self "
           "Self static struct super trait true type unsafe use where while".split())
INT = r"(?:u8|u16|u32|u64|u128|usize)"
PATH = r"[&*]*[\w:]+(?:\.\w+|\[[^\[\]]*\]|\((?:[^()]|\([^()]*\))*\))*?"
NUMBER = r"\.(?:number|ticks)\b(?!\s*\()"
COMPARE = r"(?:(?<![-=<>])(?:[<>=!]=|[<>])(?![<>=])|\.(?:max|min)\()"
HEADS = ["InAskRange", "InPutRange", "is_version [^≡]*≡ true", "< keys", "< sites"]
TACTIC = re.compile(r"(?<![\w'.-])(?:omega|search|grind|simp|rw|cc)(?![\w'-])")
ARMS = [("1e", r"\bNone\s*=>\s*Stamp::NONE\b"),
        ("4d", r"\bOk\(\s*(\w+)\s*\)\s*=>\s*(?:\1|Ok\(\s*\1\s*\))(?=\s*[,}])|\bOk\(\(\)\)\s*=>\s*Ok\(\(\)\)|"
               r"\bSome\(\s*(\w+)\s*\)\s*=>\s*&?\2(?:\.\w+)+(?=\s*[,}])|\bErr\(_\)\s*=>\s*None\b")]
TEXTS = [("1d", rf"\bErr\(\s*(?:\d\w*|[A-Z][A-Z0-9_]+)\s*\)|\bResult<(?:[^<>]|<(?:[^<>]|<[^<>]*>)*>)*,\s*{INT}\s*>"),
         ("1e", r"[=!]=\s*Stamp::NONE(?:\.number)?\b|\bStamp::NONE(?:\.number)?\s*[=!]=|\.number\s*(?:[=!]=|>)\s*0\b"),
         ("4a", r"\bimpl\b\s*(?:<[^{]*?>\s*)?(?:\w+::)*(?:PartialEq|Eq|PartialOrd|Ord|Clone|Copy|Debug|Default|Hash)\b"
                r"(?:<[^{]*?>)?\s+for\b[^{]*"),
         ("4b", rf"[^\n]*(?:{NUMBER}\s*{COMPARE}|{COMPARE}\s*{PATH}{NUMBER})[^\n]*"),
         ("7", r"\bfn\s*\(|\bdyn\b|\bBox\s*(?:<|::)")]
RULES = {"1": "a b c d e", "2": "a b c d", "3": "a b1 b2 c", "4": "a b c1 c2 d e", "5": "a1 a2 b",
         "6": "a b1 b2 b3 c d", "7": "", "8": "a b c d"}
places = set()  # (point, rule, groups, path, line, what)

def add(rule, file, at, what, groups=()):
    places.add((rule[0], rule[1:], groups, file.path, file.code.count("\n", 0, at) + 1, " ".join(what.split())))

def grouped(rule, items, least=2):
    """Adds the items (key, file, function or struct) of each key that has enough of them."""
    groups = defaultdict(dict)
    for key, file, item in items:
        groups[key][file.path, item.at] = (file, item)
    for key, group in groups.items():
        for file, item in group.values() if len(group) >= least else []:
            add(rule, file, item.at, f"{key[:60]}{'...' * (len(key) > 60)} ({len(group)}): {item.says}", (key,))

def blank(text, *spans):
    for a, b in spans:
        text = text[:a] + re.sub(r"[^\n]", " ", text[a:b]) + text[b:]
    return text

def close(text, at, opening="([{", closing=")]}"):
    """The end of what the bracket at `at` opens."""
    depth = 0
    for i in range(at, len(text)):
        depth += (text[i] in opening) - (text[i] in closing and not (text[i] == ">" and text[i - 1] in "-="))
        if depth == 0:
            return i + 1
    return len(text)

def scan(text, at, stop):
    """Where `stop` comes first, not inside ( or [."""
    while at < len(text) and not re.compile(stop).match(text, at):
        at = close(text, at) if text[at] in "([" else at + 1
    return at

def split(text):
    """The parts of a list of types, fields, parameters or variants, without their attributes and `pub`."""
    parts, depth, start = [], 0, 0
    for i, c in enumerate(text + ","):
        depth += (c in "([{<") - (c in ")]}" or c == ">" and text[i - 1] not in "-=")
        if c == "," and depth == 0:
            part = " ".join(text[start:i].split())
            parts.append(re.sub(r"^(?:#\[[^\]]*\]\s*)*(?:pub\b(?:\([^)]*\))?\s*)?", "", part))
            start = i + 1
    return [p for p in parts if p]

def pairs_of(parts):
    return [(re.sub(r"^mut ", "", name.strip()), kind.strip()) for name, _, kind in (p.partition(":") for p in parts)]

def shape(text):
    """The text with a placeholder for each name, by the kind of the name, and for each literal."""
    def placeholder(m):
        kind = "T" if m[0][0].isupper() or re.fullmatch(INT + r"|i\d+|isize|bool|char|str", m[0]) else "v"
        kind = "C" if re.fullmatch(r"[A-Z][A-Z0-9_]+", m[0]) else {"(": "f", "!": "m"}.get(m[1], kind)
        return m[0] if m[0] in KEPT else '"' if m[0][0] == '"' else "0" if m[0][0].isdigit() else kind
    text = "".join(re.sub(r'"[^"]*"|\w+(?=\s*(\(|!(?!=))?)', placeholder, text).split())
    return re.sub(r",(?=[)}\]])", "", text)

def array(kind):
    """The length of an array type."""
    found = re.fullmatch(r"\[.*;\s*([^;\]]+)\]", kind)
    return found and found[1].strip()

def functions_of(text, scopes):
    for m in re.finditer(r"\bfn\s+(\w+)\s*", text):
        at = scan(text, close(text, m.end(), "<", ">") if text[m.end()] == "<" else m.end(), r"\(")
        end = close(text, at)
        given, clauses = pairs_of(split(text[at + 1:end - 1])), []
        stop = scan(text, end, r"[{;]|\b(?:requires|ensures|decreases)\b")
        result = " ".join(re.split(r"\bwhere\b", text[end:stop])[0].strip()[2:].split())
        while c := CLAUSE.match(text, stop):
            stop = close(text, c.end())
            fact = " ".join(text[c.end() + 1:stop - 1].split())
            clauses.append(Record(kind=c[1], fact=fact, span=(c.start(1), stop)))
        at = scan(text, stop, r"\S")
        span = (at + 1, close(text, at) - 1) if text[at:at + 1] == "{" else (at, at)
        owner, trait = ([(t, r) for a, b, t, r in scopes if a < m.start() < b] or [("", "")])[-1]
        says = "fn " + (f"<{owner} as {trait}>::" if trait else f"{owner}::" if owner else "") + m[1]
        yield Record(name=m[1], says=says, at=m.start(), me=[n for n, _ in given if re.search(r"\bself$", n)],
                     params=[(n, t) for n, t in given if not re.search(r"\bself$", n)], result=result, clauses=clauses,
                     span=span, owner=owner, trait=trait)

def parse(path):
    with open(path, encoding="utf-8") as f:
        text = LEX.sub(lambda m: blank(m[0], (0, len(m[0]))) if m[0][0] == "/" else
                       f'"{blank(m[0], (0, len(m[0])))[1:-1]}"', f.read())
    text = blank(text, *[m.span() for m in re.finditer(r"\bghost\s+use\b[^;]*;", text)])
    for m in re.finditer(r"\bghost\s+\w+\s*[:=]\s*(?=\{)", text):
        text = blank(text, (m.start(), re.compile(r"\s*[,;]?").match(text, close(text, m.end())).end()))
    scopes, structs = [], []
    for m in re.finditer(r"^[ \t]*(?:pub(?:\([^)]*\))?\s+)?(?:impl|trait)\b", text, re.M):
        at = scan(text, m.end(), r"\{")
        head = text[m.end():at].strip()
        trait, _, of = head[close(head, 0, "<", ">") if head[0] == "<" else 0:].rpartition(" for ")
        of, trait = (re.sub(r"<.*|\s*:(?!:).*", "", x.strip()).split("::")[-1] for x in (of, trait))
        scopes.append((at, close(text, at), of, trait))
    functions = list(functions_of(text, scopes))
    code = blank(text, *[c.span for f in functions for c in f.clauses])
    for f in functions:
        f.code = code[f.span[0]:f.span[1]]
    for m in re.finditer(r"\bstruct\s+(\w+)", code):
        at = scan(code, m.end(), r"[({;]")
        parts = split(code[at + 1:close(code, at) - 1]) if code[at] != ";" else []
        fields = pairs_of(parts) if code[at] == "{" else [("", p) for p in parts]
        structs.append(Record(says=f"struct {m[1]}", name=m[1], at=m.start(), fields=fields))
    return Record(path=path, code=code, functions=functions, structs=structs)

def lines(file):
    """Points 1, 3, 4 and 7: what the text tells, and what a keyword, its head and what its braces hold."""
    code, matches = file.code, []
    for rule, pattern in TEXTS:
        for m in re.finditer(pattern, code):
            add(rule, file, m.start(), m[0])
    for m in re.finditer(r"\b(enum|match|while|for)\b", code):
        opened = scan(code, m.end(), r"\{")
        head, inside, at = " ".join(code[m.end():opened].split()), code[opened + 1:close(code, opened) - 1], m.start()
        if m[1] == "enum":
            loads = sorted(len(split(v[v.index("(") + 1:-1])) if "(" in v else int("{" in v) for v in split(inside))
            if len(loads) == 2 and (loads[0] == 0 < loads[1] or loads == [1, 1]):
                add("1a", file, at, f"enum {head}: " + " | ".join(split(inside)))
        elif m[1] == "match":
            matches.append((at, head, opened, close(code, opened)))
        elif m[1] == "while":
            sides = re.findall(r"([\w.]+)\s*(?=[<>]|[=!]=)", head) + re.findall(r"(?:[<>]=?|[=!]=)\s*([\w.]+)", head)
            if re.match(r"let\s+Some\b", head):
                add("3c", file, at, f"while {head}")
            elif any(re.search(rf"(?<![\w.]){re.escape(x)}\s*[-+]=\s*1\b", inside) for x in sides):
                add("3a", file, at, f"while {head}")
        elif ranged := re.match(r"(?:mut\s+)?(\w+)\s+in\b(?=[^\[]*\.\.)", head):
            x = ranged[1]
            brackets = [(b.end() - 1, close(inside, b.end() - 1)) for b in re.finditer(r"[\w)\]]\[", inside)]
            index = dict.fromkeys(inside[a:b] for a, b in brackets if re.search(rf"\b{x}\b", inside[a:b]))
            handed = re.findall(rf"\bself\.[\w.]+(?=\([^;{{]*?\b{x}\b)", inside)
            says = " indexes " + " ".join(index) if index else " handed to " + " ".join(handed) if handed else ""
            add("3b1" if index else "3b2", file, at, f"for {head}{says}")
    for rule, pattern in ARMS:
        arms = defaultdict(list)
        for m in re.finditer(pattern, code):
            arms[max((x for x in matches if x[2] < m.start() < x[3]), default=None)].append(m[0])
        for at, head, *_ in filter(None, arms):
            add(rule, file, at, f"match {head} with {', '.join(arms[at, head, *_])}")
    for f in file.functions:
        if any(f.span[0] < at < f.span[1] and re.search(r"\bprint(?:ln)?!", code[a:b]) for at, _, a, b in matches):
            add("4e", file, f.at, f"{f.says} -> {f.result}")

def functions_alone(file, f, known):
    """Points 1, 4, 6 and 7: what one function tells."""
    number, asked, answer = re.fullmatch(INT, f.result), f.trait, re.sub(r"<.*", "", f.result)
    for rule, names, holds in (
            ("1c", r"number|code|kind|refusal|letter", number),
            ("1c", r".*", number and re.fullmatch(rf"\s*\*?self\s+as\s+{INT}\s*", f.code)),
            ("4c1", r"new|make|parts|(?:check|from)_\w+", not asked and answer.split("::")[-1] == "Result"),
            ("4c2", r"number|letter|refusal|(?:to|as|into)_\w+",
             not asked and f.me and answer not in ("", f.owner, "Self")),
            ("4e", r"(?:tell|show)(?:_\w+)?", True)):
        if holds and re.fullmatch(names, f.name):
            add(rule, file, f.at, f"{f.says} -> {f.result}")
    bound = {n for n, _ in f.params} | set(re.findall(r"\b(?:let|for|mut)\s+(\w+)", f.code))
    for m in re.finditer(r"(?<![\w)\]!])\[", f.code):
        inner = f.code[m.end():close(f.code, m.start()) - 1]
        item, record = inner.rpartition(";")[0].strip(), r"[A-Z][\w:]*\s*\{"
        made = re.fullmatch(r"[a-z_]\w*", item) and re.search(rf"\blet\s+(?:mut\s+)?{item}\b[^=;]*=\s*{record}", f.code)
        items = {x.strip(" &\n").split("::")[-1] for x in inner.split(",") if x.strip()}
        if made or re.match(record, item) or "," in inner and items <= known - bound:
            add("6c" if item else "7", file, f.span[0] + m.start(), f"{f.says}: [{inner}]")
    for name in {n for n, _ in f.params} & {"mode", "kind", "step", "which", "op"}:
        for m in re.finditer(rf"\b(?:match|if)\b[^{{;]*\b{name}\b[^{{;]*(?=\{{)", f.code):
            if re.search(r"\b[a-z_]\w*\s*\(", f.code[m.end():close(f.code, m.end())]):
                add("7", file, f.span[0] + m.start(), f"{f.says}: {m[0]}")

def functions_together(functions):
    """Points 2 and 5: what several functions share."""
    grouped("2a", [(f.name, file, f) for file, f in functions if not f.trait and f.name != "main"])
    grouped("2b", [(shape(f.code), file, f) for file, f in functions
                   if sum(1 for line in f.code.split("\n") if line.strip()) >= 3])
    bare = [(file, f) for file, f in functions if f.clauses and file.code[f.span[0] - 1] == "{" and not f.code.strip()]
    grouped("2d", [("; ".join(re.sub(r"[^\W\d][\w'-]*", "N", c.fact) for c in f.clauses if c.kind == "ensures"),
                    file, f) for file, f in bare])
    facts, heads, pairs = [], [], defaultdict(list)
    for file, f in functions:
        names = "|".join(re.escape(n) for n in ["self"] + [n for n, _ in f.params])
        for c in (c for c in f.clauses if c.kind == "requires"):
            fact = re.sub(rf"(?<![\w'.-])(?:{names})(?![\w'-])(?:\.(?:now|old|new)\b)?", "_", c.fact)
            facts.append((fact, file, f))
            heads += [(h.replace("[^≡]*", ".. "), file, f) for h in HEADS if re.search(h + r"(?![\w'-])", c.fact)]
        for pair in itertools.combinations([f"{n}: {t}" for n, t in f.params], 2):
            pairs[tuple(sorted(pair))].append(f)
    grouped("5a1", facts, 3)
    grouped("5a2", heads, 3)
    for file, f in functions:
        mine = tuple(pair for pair, held in pairs.items() if len(held) >= 3 and f in held)
        if mine:
            add("5b", file, f.at, "; ".join(f"{', '.join(p)} ({len(pairs[p])})" for p in mine) + f": {f.says}", mine)

def fields(structs, functions):
    """Points 1, 2 and 6: what fields tell."""
    grouped("2c", [(", ".join(re.sub(r"\b[A-Z][A-Z0-9_]+\b|(?<=; )\d\w*", "_", t) for _, t in s.fields), file, s)
                   for file, s in structs if s.fields])
    lone = {s.name: array(s.fields[0][1]) for _, s in structs if len(s.fields) == 1}
    by_site = {s.name for _, s in structs if any(array(t) in ("SITE_PLACES", "SITES") for _, t in s.fields)}
    within = {s.name: {w for _, t in s.fields for w in re.findall(r"\w+", t)} for _, s in structs}

    def met(kinds):
        words = [set(re.findall(r"\w+", k)) for k in kinds]
        sites = [(w | {x for y in w for x in within.get(y, ())}) & by_site for w in words]
        return len([x for x in sites if x]) >= 2 and len(set().union(*sites)) >= 2

    for file, s in structs:
        names, kinds = [n for n, _ in s.fields], [t for _, t in s.fields]
        sizes = Counter(filter(None, (array(t) or lone.get(t) for t in kinds)))
        for rule, holds in (("1b", len(kinds) > 1 and "bool" in kinds), ("6b2", s.name in by_site), ("6b3", met(kinds)),
                            ("6a", any(map(array, kinds)) and {"len", "count"} & set(names)),
                            ("6b1", any(n >= 2 for n in sizes.values())),
                            ("6d", any(n in ("next", "prev", "parent", "index") and re.search(r"\b(?:usize|u32)\b", t)
                                       for n, t in s.fields))):
            if holds:
                add(rule, file, s.at, f"{s.says}: " + ", ".join(f"{n}: {t}" for n, t in s.fields))
    for file, f in functions:
        if met([f.owner] * len(f.me) + [t for _, t in f.params]):
            add("6b3", file, f.at, f"{f.says}({', '.join(f.me + [f'{n}: {t}' for n, t in f.params])})")

def definitions(text):
    """The pub definitions of a proof file: name, place, type and what is right of the first =."""
    for m in re.finditer(r"^( *)(?:abbrev |unfoldable )*pub (?:abbrev |unfoldable )*(\S+) :(?: (.*))?\n", text, re.M):
        mine = re.compile(re.escape(m[1] + m[2]) + r"(?!\S)")
        more = re.compile(rf"\s*$|{m[1]}(?:\s|unfolding )|{mine.pattern}")
        rest = itertools.takewhile(more.match, text[m.end():].split("\n"))
        rest = itertools.dropwhile(lambda line: not mine.match(line), rest)
        yield m[2], m.start(2), m[3] or "", " ".join("\n".join(rest).partition("=")[2].split())

def proofs():
    """Point 8; returns the lines of proofs/ and specs/."""
    count, answers = Counter(), []
    for path in sorted(p for d in ("proofs", "specs") for p in glob.glob(f"crates/*/{d}/**/*.antt", recursive=True)):
        _, crate, folder, *_, last = path.split("/")
        with open(path, encoding="utf-8") as f:
            file = Record(path=path, code=re.sub(r"(?<!\S)--.*", lambda m: " " * len(m[0]), f.read()))
        count[folder] += len(file.code.splitlines())
        found = list(definitions(file.code))
        for name, at, kind, right in found if last == "Answers.antt" else []:
            if re.match(r"goal\s?\.", kind):
                add("8a", file, at, f"answer {name}")
                answers.append((f"{crate}: {right}", file, Record(at=at, says=f"answer {name}")))
        lemmas = sum(1 for d in found if TACTIC.search(d[3]))
        if last == "Proof.antt":
            add("8b", file, 0, last)
        elif lemmas and path.count("/") == 3:
            add("8c", file, 0, f"{lemmas} pub definitions by a tactic")
    grouped("8d", answers, 3)
    return f"; lines in proofs/ {count['proofs']}, in specs/ {count['specs']}"

def main():
    files = [parse(path) for path in sorted(glob.glob("crates/*/src/**/*.rt", recursive=True))]
    if not files:
        sys.exit("no crates/*/src/*.rt here: run at the top of a checkout")
    functions = [(file, f) for file in files for f in file.functions]
    for file in files:
        lines(file)
    for file, f in functions:
        functions_alone(file, f, {g.name for _, g in functions})
    functions_together(functions)
    fields([(file, s) for file in files for s in file.structs], functions)
    counting, tail = "--counts" in sys.argv[1:], {"8": proofs()}
    for point, rules in RULES.items():
        mine, by = sorted(p for p in places if p[0] == point), []
        for rule in rules.split():
            groups = {key for p in mine if p[1] == rule for key in p[2]}
            by.append(f"{rule} {sum(p[1] == rule for p in mine)}" + (f" in {len(groups)} groups" if groups else ""))
        counts = f" ({', '.join(by)}{tail.get(point, '')})" if counting and by else ""
        print(f"point {point}: {len(mine)} places{counts}")
        for _, rule, _, path, line, what in mine if not counting else []:
            print(f"{path}:{line}  {point}{rule} {what}")

if __name__ == "__main__":
    main()
