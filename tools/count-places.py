#!/usr/bin/env python3
"""Counts the places where code and proofs are written in forms that today's Rattle has plainer words for.

usage: python3 tools/count-places.py [--list] [COMMIT] [POINT ..]     at the top of the repository

COMMIT is HEAD where none is named; POINT is a number from 1 to 8, all where none is named. Each line is a count and what is counted; with
--list the places follow, by crate/file. Points 1 to 7 count in crates/*/src, point 8 in crates/*/proofs. Where a pattern alone
cannot tell, what is printed are candidates, and the line says so.
"""
import collections
import io
import itertools
import re
import subprocess
import sys
import tarfile
import textwrap

FN = re.compile(r"^( *)(?:pub(?:\([a-z]+\))? )?(?:const |unsafe |ghost )*(?:extern \"C\" )?fn (\w+)")
TYPE = re.compile(r"^(?:pub(?:\([a-z]+\))? )?(struct|enum) (\w+)[^{;]*\{$")
DECLARED = re.compile(r"^( *)(?:(?:pub|abbrev|unfoldable|record|data) )*([^\s:(){}=]+)(?: [({].*[)}])? *:(?: |$)")
TOKEN = re.compile(r"[^\s:(){}\[\],;.=\"`]+")
CONTRACT = re.compile(r" *(requires|ensures)\b")
WORDS = set("fn let mut if else while for in match return self pub struct requires ensures as true false".split())

Function = collections.namedtuple("Function", "place head clauses body")
Declaration = collections.namedtuple("Declaration", "place kind fields")


def files(commit):
    """The text of each source and proof file at a commit, by its path."""
    made = subprocess.run(["git", "archive", commit, "crates"], check=True, capture_output=True).stdout
    with tarfile.open(fileobj=io.BytesIO(made)) as tar:
        inside = [m for m in tar.getmembers() if m.isfile() and re.search(r"\.(rt|antt|edit)$", m.name)]
        return {m.name: tar.extractfile(m).read().decode("utf-8") for m in inside}


def bare(text):
    """The lines without comments; a line of imports, and one that is a comment, is empty."""
    lines = [re.sub(r"\s*//.*", "", line) for line in text.split("\n")]
    return ["" if re.match(r"(ghost |pub )?use ", line) else line for line in lines]


def short(path):
    parts = path.split("/")
    return f"{parts[1]}/{'/'.join(parts[3:])}"


def head_end(lines, start, indent):
    """Where a function's body begins, and where it ends: after `{` alone, or after a signature that ends with `{`; a declaration has none."""
    seen = False
    for i in range(start, len(lines)):
        seen = seen or CONTRACT.match(lines[i]) is not None
        if lines[i] == indent + "{" or (not seen and lines[i].endswith("{")):
            return i + 1, next((k for k in range(i + 1, len(lines)) if lines[k] == indent + "}"), len(lines))
        if lines[i].endswith(";") or (not seen and lines[i].endswith("}")):
            return i + 1, i + 1
    return len(lines), len(lines)


def clauses_of(lines):
    """The texts of a contract's clauses."""
    parts = re.split(r"\b(?:requires|ensures)\b", " ".join(line.strip() for line in lines))[1:]
    return [part[part.index("{") + 1 : part.rindex("}")].strip() for part in parts if "{" in part]


def functions_in(path, lines):
    owner = ""
    for i, line in enumerate(lines):
        impl = re.match(r"impl(?:<.*?>)? (\w+)", line)
        owner = impl.group(1) + "::" if impl else ("" if line == "}" else owner)
        found = FN.match(line)
        if not found:
            continue
        indent = found.group(1)
        body, end = head_end(lines, i, indent)
        split = next((k for k in range(i, body) if CONTRACT.match(lines[k])), body)
        head = " ".join(x.strip() for x in lines[i:split])
        last = body - 1 if split < body else body
        clauses = clauses_of(lines[split:last]) if split < body else []
        yield Function(f"{short(path)}:{owner}{found.group(2)}", head, clauses, lines[body:end])


def declarations_in(path, lines):
    for i, line in enumerate(lines):
        found = TYPE.match(line)
        if found:
            end = lines.index("}", i)
            fields = [x.strip().rstrip(",") for x in lines[i + 1 : end] if x.strip() and "#[" not in x]
            yield Declaration(f"{short(path)}:{found.group(2)}", found.group(1), fields)


def parameters(function):
    """The parameters as `name: type`, without a mode of borrowing."""
    inside = re.search(r"\((.*)\)", re.sub(r".*?fn \w+(<[^(]*>)?", "", function.head, count=1))
    listed = re.split(r", (?=\w+: )", inside.group(1)) if inside else []
    return [re.sub(r"&(mut )?", "", p).strip(" ,") for p in listed if ":" in p]


def sites(functions, pattern):
    """The place of each line of a body that the pattern is in, once for each time."""
    form = re.compile(pattern)
    return [f.place for f in functions for line in f.body for _ in form.finditer(line)]


def by_file(places):
    """The places of each file in one paragraph, with how many times each."""
    grouped = collections.defaultdict(list)
    for place, times in collections.Counter(places).items():
        path, _, name = place.partition(":")
        grouped[path].append(name + (f" ({times})" if times > 1 else ""))
    for path, names in grouped.items():
        yield textwrap.fill(f"{path}: {', '.join(names)}", 150, initial_indent="        ", subsequent_indent="            ", break_long_words=False)


def said(places, what, listed):
    counted = len(set(places))
    print(f"{len(places):6}  {what}" + (f", in {counted} places" if counted < len(places) else ""))
    if listed and places:
        print("\n".join(by_file(places)))


def point1(functions, declared, _, listed):
    enums = [d.place for d in declared if d.kind == "enum" and any(re.match(r"(Refused|Malformed|Nothing)\b", x) for x in d.fields)]
    numbered = [d.place for d in declared if d.kind == "struct" and any(re.match(r"(pub )?number: u8$", x) for x in d.fields)]
    mixed = [d.place for d in declared if d.kind == "struct" and 0 < sum(x.endswith(": bool") for x in d.fields) < len(d.fields)]
    said(enums, "enums with a variant for none or for a refusal", listed)
    said(numbered, "structs with a refusal's number beside a value", listed)
    said(mixed, "structs with a flag beside other fields (candidates)", listed)
    said([f.place for f in functions if re.search(r"\bnumber: u8\b", f.head)], "functions that take a number of eight bits (candidates)", listed)
    said([f.place for f in functions if re.search(r"-> u8\b", f.head)], "functions that answer a number of eight bits (candidates)", listed)
    said(sites(functions, r"\b(refuse|refused)\((.*, )?\d\)"), "refusals by a literal number", listed)
    said(sites(functions, r"\bRefused\("), "uses of Refused(number)", listed)
    said(sites(functions, r"\bnumber [!=]= 0\b"), "tests of a number against 0", listed)
    said(sites(functions, r"^\s*number(: [\w.]+)?,$"), "number: fields in struct literals", listed)
    kinds = [f.place for f in functions if re.search(r"\bkind: u(8|16)\b", f.head)]
    said(kinds, "functions that take a kind as a number", listed)
    said(sites(functions, r"\bkind(\.number)? == \d"), "tests of a kind's number", listed)
    said(sites(functions, r"^ *0x[0-9A-F]{2} =>"), "registers matched by number", listed)


def shape(function):
    """The function's text with each name and each number made the same."""
    text = " ".join([re.sub(r"^\w+ |fn \w+", "fn", function.head)] + [line.strip() for line in function.body])
    text = re.sub(r"b?\"[^\"]*\"", "0", text)
    return re.sub(r"[A-Za-z_]\w*|\b[0-9]\w*", lambda m: m.group(0) if m.group(0) in WORDS else "x", text)


def groups_said(groups, what, listed):
    print(f"{len(groups):6}  {what}, of {sum(len(g) for g in groups)} in all")
    if listed:
        for group in groups:
            print("        " + ", ".join(group))


def point2(functions, declared, _, listed):
    by_shape = collections.defaultdict(list)
    for f in functions:
        by_shape[shape(f)].append(f.place)
    groups = [g for s, g in by_shape.items() if len(g) > 1 and len(s) > 40]
    groups_said(groups, "groups of functions of one shape (candidates)", listed)
    by_fields = collections.defaultdict(list)
    for d in declared:
        types = [re.sub(r"; \d+\]", "; n]", re.sub(r".*?: ", "", x)) for x in d.fields]
        by_fields[" ".join(types)].append(d.place)
    groups_said([g for g in by_fields.values() if len(g) > 1], "groups of types of one shape (candidates)", listed)


def loops(function):
    """Each `while` of a body: whether it counts an index by one."""
    for i, line in enumerate(function.body):
        found = re.match(r"( *)while (.*) \{$", line)
        if not found:
            continue
        end = function.body.index(found.group(1) + "}", i)
        steps = re.findall(r"(\w+) \+= 1;", "\n".join(function.body[i:end]))
        yield any(re.search(rf"\b{s}\b", found.group(2)) for s in steps)


def point3(functions, _, __, listed):
    found = [(f.place, counts) for f in functions for counts in loops(f)]
    said([p for p, counts in found if counts], "loops with an index counted by hand", listed)
    said([p for p, counts in found if not counts], "other loops by while", listed)
    said(sites(functions, r"^\s*for .* in "), "loops by for", listed)


def empty_literals(functions):
    """Struct literals whose values are all 0, false or arrays of these."""
    found = []
    for f in functions:
        for made in re.finditer(r"\b[A-Z]\w+ \{([^{}]*)\}", " ".join(x.strip() for x in f.body)):
            fields = [x.strip() for x in made.group(1).split(",") if x.strip()]
            if fields and all(re.fullmatch(r"\w+: (0(x0+)?|false|\[0; \d+\])", x) for x in fields):
                found.append(f.place)
    return found


def point4(functions, _, __, listed):
    said(sites(functions, r"(?<![\w.])equal\("), "calls of slices::equal", listed)
    said(sites(functions, r"(?<![\w.])(fill|slices::invert)\("), "calls of slices::fill and slices::invert", listed)
    said(sites(functions, r"(?<![\w.])(least|least_length|less)\("), "calls of numbers::least, least_length and less", listed)
    said(sites(functions, r"(?<![\w.])(wide|low_byte)\("), "calls of numbers::wide and low_byte", listed)
    said(sites(functions, r"(?<![\w.])weight\("), "calls of numbers::weight", listed)
    said(sites(functions, r"^\s*(\w+): \1,?$|[{,] (\w+): \2\b(?!\.)"), "fields written `a: a`", listed)
    said(sites(functions, r"^\s*let (?:mut )?\w+ = \w+(?:\.\w+)+;"), "copies of a field into a variable (candidates)", listed)
    said(sites(functions, r"(\S+) = \1 [-+^&|*/%] "), "`x = x ^ y` and the like", listed)
    said(sites(functions, r"% 256\) as u8|/ 256\) as u8"), "bytes of a number by % 256 and / 256", listed)
    said(sites(functions, r"\(\w+(\[\d+\])? >> \d+\) % 2 == 1"), "bits of a number as switches", listed)
    said(sites(functions, r"^\s*\w+(?:\.\w+)*\.(\w+) = \1;"), "a variable put into the field of its name", listed)
    said(sites(functions, r"!\([\w.]+ == "), "`!(x == y)`", listed)
    said(sites(functions, r"\bas (u8|u16|u32|u64|usize)\b"), "casts by as (candidates for From)", listed)
    unchanged = [f.place for f in functions if "(mut self" in f.head and not re.search(r"\bself(\.\w+|\[.*\])* [-+^&|*/]?= ", "\n".join(f.body))]
    said(unchanged, "methods with a `mut self` that they do not change", listed)
    said(empty_literals(functions), "struct literals of zeros and false alone", listed)


def facts(function):
    """The facts of a contract, their parts apart, without the mark of a time."""
    for text in function.clauses:
        inner = text[1:-1] if text.startswith("(") and text.count("(") == 1 else text
        for part in re.split(r"\) × \(", inner):
            yield re.sub(r"\.(old|new|now)\b", "", part.strip("() ") if "× (" in text else part)


def repeated(functions, read, least=3):
    by_text = collections.defaultdict(list)
    for f in functions:
        for text in dict.fromkeys(read(f)):
            by_text[text].append(f.place)
    return sorted(((t, p) for t, p in by_text.items() if len(p) >= least), key=lambda x: -len(x[1]))


def together(functions):
    """Groups of two or more parameters that stand in three or more signatures, the largest of each set of signatures."""
    sets = {f.place: frozenset(parameters(f)) for f in functions}
    found = {a & b for a, b in itertools.combinations(sets.values(), 2) if len(a & b) > 1}
    found |= {a & b for a, b in itertools.combinations(found, 2) if len(a & b) > 1}
    holds = {g: [p for p, s in sets.items() if g <= s] for g in found}
    largest = [g for g in holds if not any(g < h and holds[g] == holds[h] for h in holds)]
    return sorted(((g, holds[g]) for g in largest if len(holds[g]) >= 3), key=lambda x: (-len(x[1]), sorted(x[0])))


def point5(functions, _, __, listed):
    exact = [f.place for f in functions for t in f.clauses for _ in re.findall(r"length \w+(?:\.\w+)* ≡ \d+", t)]
    said(exact, "clauses that state an exact length", listed)
    arrays = [f.place for f in functions for p in parameters(f) for n in re.findall(r"^(\w+): \[\w+; (\d+)\]", p)
              for t in f.clauses if re.search(rf"length {n[0]}(\.\w+)? ≡ {n[1]}\b", t)]
    said(arrays, "of these of an array, whose type says it", listed)
    clauses = repeated(functions, facts)
    print(f"{len(clauses):6}  facts that stand in three or more contracts, in {sum(len(p) for _, p in clauses)} contracts' clauses")
    groups = together(functions)
    if listed:
        for text, places in clauses:
            print(f"    {len(places):4}  {text}", *by_file(places), sep="\n")
    print(f"{len(groups):6}  groups of parameters that stand together in three or more signatures (candidates)")
    if listed:
        for group, places in groups:
            print(f"    {len(places):4}  {', '.join(sorted(group))}", *by_file(places), sep="\n")


def point6(functions, declared, _, listed):
    said(sites(functions, r"let mut \w+(: [^=]+)? = \[[^;\]]+; \w+\];"), "fixed buffers in a function (candidates)", listed)
    said(sites(functions, r"\[(\.\.\w+|\w+\.\.\w+|\w+\.\.)\]"), "parts of a slice by a place or a length beside it (candidates)", listed)
    fields = [d.place for d in declared for x in d.fields if re.search(r": (\[.*; \w+\]|usize)$", x)]
    said(fields, "fields that are an array, a place or a length (candidates)", listed)
    said([f.place for f in functions if len(re.findall(r"\w+: &(?:mut )?\[u8\]", f.head)) > 1], "functions of two or more slices (candidates)", listed)
    said(sites(functions, r"\bif (equal\(|\w+ == b\")"), "tests of a list searched by hand", listed)


def point7(functions, _, __, listed):
    found = []
    for f in functions:
        names = [p.split(":")[0].replace("mut ", "") for p in parameters(f)]
        tested = [n for n in names if any(re.search(rf"\b(if|match) !?{n}( ==| \{{)", line) for line in f.body)]
        found += [f"{f.place}({n})" for n in tested]
    said(found, "parameters that a function tests to choose what it runs (candidates)", listed)
    said(sites(functions, r"\bmatch "), "matches (candidates)", listed)


def answers(texts):
    """Each answer as (crate, file, text)."""
    for path, text in sorted(texts.items()):
        parts = path.split("/")
        if len(parts) > 4 and parts[2] == "proofs" and parts[-1] in ("Answers.antt", "Invariants.antt"):
            yield parts[1], path, ""
            for block in re.split(r"\n(?=(?:pub |abbrev )*\S+ : )", text)[1:]:
                if "goal." not in block.split("\n")[0]:
                    continue
                yield parts[1], path, re.sub(r"\s+", " ", re.sub(r"--.*", "", block).split("=", 1)[-1]).strip()


def answers_said(texts, listed):
    count, bodies = collections.defaultdict(collections.Counter), collections.defaultdict(list)
    for crate, path, body in answers(texts):
        count[crate][path.split("/")[-1] if body == "" else "answers"] += 1
        if body:
            bodies[body].append(":".join(short(path).rsplit("/", 1)))
    for crate, of in [*sorted(count.items()), ("all", sum(count.values(), collections.Counter()))]:
        print(f"{of['answers']:6}  answers of {crate}, in {of['Answers.antt']} Answers.antt and {of['Invariants.antt']} Invariants.antt")
    plain = [p for b, ps in bodies.items() for p in ps if re.fullmatch(r"omega \(?(arith|[\w., ]+)\)?|refl|search \S+|\(omega arith, refl\)", b)]
    said(plain, "answers of one step (candidates: the check may find them)", listed)
    groups_said([ps for b, ps in bodies.items() if len(ps) >= 3 and len(b) >= 60], "texts of an answer that three or more have", listed)


def blocks(text):
    """Each declaration of a proof file with the lines that belong to it."""
    lines = re.sub(r"--.*", "", text).split("\n")
    starts = [i for i, line in enumerate(lines) if DECLARED.match(line) and not re.match(r" *(use|module|where|let)\b", line)]
    for i, end in zip(starts, starts[1:] + [len(lines)]):
        yield DECLARED.match(lines[i]), lines[i:end]


def unnamed(texts):
    """Declarations of proof files, other than answers, that nothing names besides themselves; apart, those that prove a statement of specs."""
    used, inside, own, stated = collections.Counter(), collections.Counter(), {}, set()
    for path, text in sorted(texts.items()):
        used.update(TOKEN.findall(re.sub(r"--.*", "", text)))
        if "/specs/" in path:
            stated |= {m.group(2) for m in map(DECLARED.match, text.split("\n")) if m}
        if "/proofs/" not in path or path.endswith("/Lib.antt"):
            continue
        for found, lines in blocks(text):
            if len(found.group(1)) <= 4 and "goal." not in lines[0]:
                own[f"{short(path)}:{found.group(2)}"] = lines[0]
                inside[found.group(2)] += TOKEN.findall("\n".join(lines)).count(found.group(2))
    free = [(place, line) for place, line in own.items() if used[place.split(":")[1]] == inside[place.split(":")[1]]]
    heads = {place: re.findall(r"(?:: |→ )\(?([A-Z]\w*)[^→]*$", line) for place, line in free}
    claims = [place for place, _ in free if heads[place] and heads[place][0] in stated]
    return [place for place, _ in free if place not in claims], claims


def point8(_, __, texts, listed):
    answers_said(texts, listed)
    free, claims = unnamed(texts)
    said(free, "declarations in proofs that nothing names (candidates)", listed)
    said(claims, "others that prove a statement of specs", listed)


POINTS = [point1, point2, point3, point4, point5, point6, point7, point8]


def main(arguments):
    listed = "--list" in arguments
    rest = [a for a in arguments if a != "--list"]
    asked = [int(a) for a in rest if re.fullmatch(r"[1-8]", a)]
    commit = next((a for a in rest if not re.fullmatch(r"[1-8]", a)), "HEAD")
    texts = files(commit)
    sources = {path: bare(text) for path, text in sorted(texts.items()) if "/src/" in path}
    functions = [f for path, lines in sources.items() for f in functions_in(path, lines)]
    declared = [d for path, lines in sources.items() for d in declarations_in(path, lines)]
    print(f"{commit}: {len(functions)} functions and {len(declared)} types in {len(sources)} files")
    for number in asked or range(1, 9):
        print(f"Point {number}")
        POINTS[number - 1](functions, declared, texts, listed)


if __name__ == "__main__":
    main(sys.argv[1:])
