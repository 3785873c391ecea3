#!/usr/bin/env python3
"""Lists the places where code of src/ has an older form than today's Rattle offers.

usage: python3 tools/forms.py [--counts] [COMMIT]      at the top of the repository

It goes by text, over the working tree or over COMMIT: a row is a place to look at, not a verdict. docs/DESIGN-PASS.md
says what became of each.
"""
import difflib
import re
import subprocess
import sys

# A line of src/ that matches is a place; the key is the point of docs/DESIGN-PASS.md and the row in it.
LINES = {
    "1a an Option or Result taken apart and put together again":
        r"(None|Err\(\w+\)) => (None|Err\(|Ok\(|Some\(|false|true|0,|return (Err|None|Ok|false)|\w+::none\(\))"
        r"|\b(Some|Ok)\((\w*|\(\))\) => (Some\(|Ok\(|true|false)",
    "1b a bool as the answer of what can fail": r"-> Result<bool|&mut .*-> bool|return (Ok\()?false",
    "1c a flag in a struct": r"^\s+(pub(\(\w+\))? )?\w+: bool,",
    "1d a number for a kind or a refusal": r"^\s+(pub )?(number|pass|opcode): u8,|-> u8$|const [A-Z_]+: u8 =",
    "1e an error type without derives to tell it": None,
    "1f a Result let go, or asked whether it is one": r"let _ = |\.is_ok\(\)|\.is_err\(\)",
    "3a a loop over numbers": r"\bfor \w+ in [^{]*\.\.[^{]*\{",
    "3b a loop with its number beside": r"\.enumerate\(\)",
    "3c a while or a loop": r"^\s*(while|loop)\b",
    "3d a loop that gathers by hand": None,
    "3e a bound that is compared by hand before a return": None,
    "4a a table from an enum to words or numbers":
        r"^\s*(pub(\(crate\))? )?fn \w+\((&?self|\w+: \w+(<'_>)?)(, \w+: [^)]*)?\) -> (u8|&'static str|Refusal)",
    "4b a conversion by `as`": r" as (u8|u16|u32|u64|usize|i32|i64|i128|char)\b",
    "4c equality by hand": r"matches!\(",
    "7a a match from a word to the function to call": r"^\s*\"\w+\" => .*\(",
    "7b a state or step machine over an enum": r"^\s*(pub(\(crate\))? )?enum (State|Said|Action|Nesting|Standing)\b",
}
KEYWORDS = set("fn let mut if else match for in while loop return self Self Some None Ok Err usize u8 u16 u32 u64 i32 "
               "i64 bool impl pub crate as ref move break continue".split())


def sources(commit):
    if commit:
        names = subprocess.run(["git", "ls-tree", "-r", "--name-only", commit], capture_output=True, text=True,
                               check=True).stdout.split()
    else:
        names = subprocess.run(["git", "ls-files", "-co", "--exclude-standard"], capture_output=True, text=True,
                               check=True).stdout.split()
    files = {}
    for name in sorted(set(names)):
        if not re.match(r"crates/\w+/(src|proofs)/.*\.(rt|antt)$", name):
            continue
        if commit:
            files[name] = subprocess.run(["git", "show", f"{commit}:{name}"], capture_output=True, text=True,
                                         check=True).stdout
        else:
            try:
                files[name] = open(name, encoding="utf-8").read()
            except FileNotFoundError:
                pass
    return files


def code_lines(text):
    """Numbered lines without comments."""
    for number, line in enumerate(text.split("\n"), 1):
        yield number, re.sub(r"//.*", "", line)


def functions(name, text):
    """Each function: its place, its name, all of it, its body."""
    lines = [line for _, line in code_lines(text)]
    for i, line in enumerate(lines):
        head = re.match(r"(\s*)(pub(\(crate\))? )?(final )?fn (\w+)", line)
        if not head:
            continue
        indent, j, body = head.group(1), i, None
        while j < len(lines):
            if body is None and (lines[j] == indent + "{" or lines[j].endswith(" {") and lines[j].startswith(
                    (indent + head.group(0).strip(), indent + ")"))):
                body = j + 1
            if lines[j].endswith(";") and body is None or lines[j] == indent + "}":
                break
            j += 1
        whole = lines[i:j + 1]
        yield f"{name}:{i + 1}", head.group(5), "\n".join(whole), "\n".join(lines[body:j]) if body else ""


def shape(body):
    """The tokens of a body, names and numbers made alike."""
    out = []
    for token in re.findall(r"[A-Za-z_]\w*|\d[\w.]*|\"[^\"]*\"|b?'[^']+'|[^\s\w]", body):
        if re.match(r"[A-Za-z_]", token):
            out.append(token if token in KEYWORDS else "n")
        else:
            out.append("0" if token[0].isdigit() or token[0] in "'\"" or token.startswith("b'") else token)
    return out


def twins(files):
    """Functions of the same shape but for names and numbers."""
    found = []
    all_functions = [(place, fn, shape(body)) for name, text in files.items() if name.endswith(".rt")
                     for place, fn, _, body in functions(name, text)]
    for i, (place, fn, one) in enumerate(all_functions):
        for other_place, other_fn, other in all_functions[:i]:
            if min(len(one), len(other)) < 14 or abs(len(one) - len(other)) > 8:
                continue
            if difflib.SequenceMatcher(None, one, other, autojunk=False).ratio() >= 0.9:
                found.append((other_place, f"{other_fn} ~ {place} {fn}"))
    return found


def gathered(files):
    """`for` loops that change a variable of their own: a sum, a count, a list."""
    found = []
    for name, text in files.items():
        if not name.endswith(".rt"):
            continue
        lines = list(code_lines(text))
        for i, (number, line) in enumerate(lines):
            head = re.match(r"(\s*)for .* \{$", line)
            if head:
                body = []
                for _, inner in lines[i + 1:]:
                    if inner == head.group(1) + "}":
                        break
                    body.append(inner)
                if any(re.search(r"^\s*\w+ (\+|\||-)?= |\.push(_str)?\(|return ", inner) for inner in body):
                    found.append((f"{name}:{number}", line.strip()))
    return found


def bounds(files):
    """An `if` over an order or an emptiness whose block does nothing but return None, false or 0."""
    found = []
    for name, text in files.items():
        if name.endswith(".rt"):
            for one in re.finditer(r"^ *if ([^{\n]*(?: [<>]=? | == |is_empty)[^{\n]*) \{\n\s*return ([^;]*);\n\s*\}", text, re.M):
                if re.match(r"None|false|0$|Err\((Full|NoEntry|Outside)\)", one.group(2)):
                    found.append((f"{name}:{text[:one.start()].count(chr(10)) + 1}", f"if {one.group(1)} .. {one.group(2)}"))
    return found


def repeated_clauses(files):
    """Clauses that stand, letter by letter, in three functions or more."""
    seen = {}
    for name, text in files.items():
        if not name.endswith(".rt"):
            continue
        for place, fn, whole, _ in functions(name, text):
            for clause in set(re.findall(r"^\s*(?:requires|ensures)(?: \w+)? (\{ .* \})", whole, re.M)):
                seen.setdefault(clause, []).append(f"{place} {fn}")
    return [(at[0], f"{clause}  in {len(at)}") for clause, at in sorted(seen.items()) if len(at) >= 3]


def parameter_groups(files):
    """Two or more parameters, by name and type, that stand together in three functions or more."""
    seen = {}
    for name, text in files.items():
        if not name.endswith(".rt"):
            continue
        crate = name.split("/")[1]
        for place, fn, whole, _ in functions(name, text):
            listed = re.match(r"[^(]*\(([^{]*?)\)\s*(->|\n|\{|requires|ensures|where|$)", whole, re.S)
            if not listed:
                continue
            parameters = sorted(p.strip() for p in re.split(r",(?![^<\[]*[>\]])", listed.group(1))
                                if ":" in p and "rt: " not in p)
            for i, one in enumerate(parameters):
                for other in parameters[i + 1:]:
                    seen.setdefault((crate, one, other), []).append(f"{place} {fn}")
    return [(at[0], f"({one}, {other})  in {len(at)}") for (_, one, other), at in sorted(seen.items()) if len(at) >= 3]


def lengths_beside(files):
    """A slice or an array and a length of its own, in one struct or one parameter list."""
    found = []
    for name, text in files.items():
        if not name.endswith(".rt"):
            continue
        clean = "\n".join(line for _, line in code_lines(text))
        for struct in re.finditer(r"struct (\w+)[^{;(]*\{(.*?)\n\}", clean, re.S):
            fields = struct.group(2)
            if re.search(r": (&'\w+ (mut )?)?\[", fields) and re.search(r": usize,", fields):
                found.append((f"{name}:{clean[:struct.start()].count(chr(10)) + 1}", f"struct {struct.group(1)}"))
        for place, fn, whole, _ in functions(name, text):
            head = whole.split("{")[0]
            if re.search(r": &('\w+ )?(mut )?\[", head) and re.search(r"\b(len|length|count|written|shown|size|entries): usize", head):
                found.append((place, f"fn {fn}"))
    return found


def plain_errors(files):
    found = []
    for name, text in files.items():
        if name.endswith(".rt"):
            for one in re.finditer(r"#\[derive\(([^)]*)\)\]\n(pub (?:enum|struct) (\w*Fault|\w+;))", text):
                if "Debug" not in one.group(1):
                    found.append((f"{name}:{text[:one.start()].count(chr(10)) + 2}", one.group(2).rstrip(";")))
    return found


def proofs(files):
    answers = [name for name in files if re.search(r"/proofs/.*(Answers|Invariants)\.antt$", name)]
    lemmas = [name for name in files if re.search(r"/proofs/\w+\.antt$", name) and not name.endswith("Lib.antt")]
    given = sum(len(re.findall(r"^(abbrev )?pub [\w-]+ :", files[name], re.M)) for name in answers)
    stated = sum(len(re.findall(r"^(abbrev |record )?(pub )?[\w'-]+ : ", files[name], re.M)) for name in lemmas)
    return [(f"{len(answers)} files", f"{given} answers and invariants, {sum(files[n].count(chr(10)) for n in answers)} lines"),
            (f"{len(lemmas)} files", f"{stated} lemmas, {sum(files[n].count(chr(10)) for n in lemmas)} lines")]


def rows(files):
    out = {}
    for key, pattern in LINES.items():
        if pattern:
            out[key] = [(f"{name}:{number}", line.strip()) for name, text in files.items() if name.endswith(".rt")
                        for number, line in code_lines(text) if re.search(pattern, line)]
    out["1e an error type without derives to tell it"] = plain_errors(files)
    out["2 functions of one shape"] = twins(files)
    out["3d a loop that gathers by hand"] = gathered(files)
    out["3e a bound that is compared by hand before a return"] = bounds(files)
    out["5a a clause in three functions or more"] = repeated_clauses(files)
    out["5b parameters that stand together in three functions or more"] = parameter_groups(files)
    out["6 a buffer with a length beside"] = lengths_beside(files)
    out["8 proofs"] = proofs(files)
    return dict(sorted(out.items()))


def main():
    words = sys.argv[1:]
    counts = "--counts" in words
    rest = [word for word in words if word != "--counts"]
    if len(rest) > 1 or any(word.startswith("-") for word in rest):
        sys.exit(__doc__)
    for key, places in rows(sources(rest[0] if rest else None)).items():
        print(f"{key}: {len(places)}" if key[0] != "8" else key)
        if not counts or key[0] == "8":
            for place, what in places:
                print(f"    {place}  {what}")


if __name__ == "__main__":
    main()
