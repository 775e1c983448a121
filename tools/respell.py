#!/usr/bin/env python3
"""Respells the definitions and lemmas of this repository: words in snake case, types in camel case, a prime as an apostrophe.

Run once, at the top, right after the kit's port.py. It goes by text, through specs/, proofs/ and the clauses of src/.
- A word of ours with a dash gets underscores (`half-bytes` is `half_bytes`), a type of ours loses its dashes (`Same-shown` is `SameShown`).
- Names that a file imports from elsewhere stay as they are.
- In the names that the check makes (goals, and paths such as `c.is-free.ensures`) only what is a name of the Rattle source gets its underscores back.
- The crate `bytes` is called `octets`, since the kit has a library named bytes.
"""
import re
import sys
from collections import defaultdict
from pathlib import Path

OLD_CRATE, NEW_CRATE = "bytes", "octets"
TOKEN = re.compile(r"[A-Za-z_][A-Za-z0-9_'′⊎ℕ]*(?:-[A-Za-z0-9_'′⊎ℕ]+)*")
# What would be taken for a word of the library gets a name by hand.
BY_HAND = {"On-ok": "OnDraft"}
# Words that the check makes names of, and functions of the library that the source calls.
MADE = ["in_ok", "in_err", "in_default", "type_inv", "slice_bounds", "offset_bounds", "invariant_of", "yielded_by"]
MADE += [f"overflow_{op}" for op in ("add", "sub", "mul", "shl", "shr", "cast", "step", "neg")] + ["nonzero_div", "nonzero_rem"]
OF_STD = ["to_le_bytes", "from_le_bytes", "copy_from_slice", "is_some", "is_none", "is_empty", "as_str", "as_slice", "as_bytes", "with_capacity", "from_residual"]


def is_old(name):
    return any(sign in name for sign in ("-", "′", "getD", "putMid"))


def spelled(name):
    if name in BY_HAND:
        return BY_HAND[name]
    name = name.replace("′", "'").replace("getD", "get_or").replace("putMid", "put_mid")
    parts = name.split("-")
    if name[0].isupper():
        return parts[0] + "".join(p[0].upper() + p[1:] for p in parts[1:])
    return "_".join(parts)


def antt_files():
    return sorted(p for top in ("specs", "proofs") for p in Path("crates").glob(f"*/{top}/**/*.antt"))


def source_files():
    return sorted(Path("crates").glob("*/src/**/*.rt"))


def without_comment(line):
    return re.sub(r"(^|\s)--(\s.*)?$", r"\1", line)


SIGNATURE = re.compile(r"^\s*(?:(?:abbrev|unfoldable|pub|ruleset|data|record|private)\s+)*([^\s:(){}=,;]+)\s*(?:[:(={].*)?$")
GENERATED = re.compile(r":\s*(?:goal|given|need|tie)\.")


def declared(path):
    """The names that a file of ours declares."""
    found = set()
    for line in path.read_text().split("\n"):
        line = without_comment(line)
        if line.startswith("use ") or GENERATED.search(line):
            continue
        match = SIGNATURE.match(line)
        if match and (":" in line or "=" in line or "data" in line or "record" in line):
            found.add(match.group(1))
        for group in re.findall(r"[({]([^(){}:]*) : ", line):
            found.update(w for w in group.split() if TOKEN.fullmatch(w))
        for name in re.findall(r"\blet ([^\s:=]+) (?::|=)", line):
            found.add(name)
        for name in re.findall(r"λ ([^.]*)\.", line):
            found.update(w for w in name.split() if TOKEN.fullmatch(w))
    return found


def imports(text):
    """The names that a file imports from elsewhere than this repository."""
    found = set()
    for path, names in re.findall(r"\buse ([\w.+⊎-]+)\.\{([^}]*)\}", text):
        if any(path.startswith(f"Rattle.{c}.") for c in crates()):
            continue
        for name in names.split(","):
            found.update(name.split(" as ")[-1].split())
    return found


def crates():
    return [p.name for p in Path("crates").iterdir()]


def source_names():
    """Names of the source with underscores, by their spelling with dashes."""
    found = {}
    for path in source_files():
        for name in re.findall(r"\b[a-z]\w*_\w*\b", path.read_text()):
            found[name.strip("_").replace("_", "-")] = name
    for name in MADE + OF_STD:
        found[name.replace("_", "-")] = name
    return {k: v for k, v in found.items() if "-" in k}


def made_name(name, sources):
    """A name that the check makes: the longest runs of its parts that are names of the source get underscores."""
    parts = name.split("-")
    out, i = [], 0
    while i < len(parts):
        for j in range(len(parts), i, -1):
            run = "-".join(parts[i:j])
            if run in sources:
                out.append(sources[run])
                i = j
                break
        else:
            out.append(parts[i])
            i += 1
    return "-".join(out)


def goal_names(text):
    """The names of goals and of arms that a proof file answers or goes by."""
    found = set(re.findall(r"^\s*(?:abbrev )?(?:pub )?([^\s:]+) : (?:goal|given)\.", text, re.M))
    for names in re.findall(r"^use Rattle\.[\w.+]*\.(?:Goals|Given)\.\{([^}]*)\}", text, re.M):
        found.update(part for n in names.split(",") for part in n.strip().split("+"))
    return found


def turned_name(name, before, made, foreign, ours, sources):
    """A name of a specs/ or proofs/ file in its new spelling, by what stands before it."""
    if not is_old(name):
        return name
    if name in made or re.search(r"(?:goal|given)\.$", before) or (before.endswith(".") and name not in ours):
        return made_name(name, sources)
    if name in foreign and name not in BY_HAND:
        return name
    return spelled(name) if name in ours else name


def turn_antt(path, ours, sources):
    text = path.read_text()
    made, foreign = goal_names(text), imports(text)
    out = []
    for line in text.split("\n"):
        code = without_comment(line)
        turned = TOKEN.sub(lambda m: turned_name(m.group(0), code[: m.start()], made, foreign, ours, sources), code)
        out.append(turned + turned_comment(line[len(code) :], ours))
    path.write_text("\n".join(out))


def turned_comment(comment, ours):
    return re.sub(r"`([^`]*)`", lambda m: "`" + TOKEN.sub(lambda n: spelled(n.group(0)) if n.group(0) in ours else n.group(0), m.group(1)) + "`", comment)


def turn_source(path, ours):
    text = path.read_text()
    foreign = imports(text)
    out = []
    for line in text.split("\n"):
        match = re.match(r'^((?:[^"/]|/(?!/)|"(?:[^"\\]|\\.)*")*)(//.*)?$', line)
        code, comment = (match.group(1), match.group(2) or "") if match else (line, "")
        pieces = re.split(r'("(?:[^"\\]|\\.)*")', code)
        for i in range(0, len(pieces), 2):
            pieces[i] = TOKEN.sub(lambda m: spelled(m.group(0)) if m.group(0) in ours and "-" in m.group(0) and m.group(0) not in foreign else m.group(0), pieces[i])
        out.append("".join(pieces) + comment)
    path.write_text("\n".join(out))


def rename_crate():
    old, new = Path("crates") / OLD_CRATE, Path("crates") / NEW_CRATE
    old.rename(new)
    for path in antt_files() + source_files():
        text = path.read_text()
        turned = text.replace(f"Rattle.{OLD_CRATE}.", f"Rattle.{NEW_CRATE}.")
        if path.suffix == ".rt":
            turned = re.sub(rf"\b{OLD_CRATE}::(?=[a-z{{])", f"{NEW_CRATE}::", turned)
        if turned != text:
            path.write_text(turned)
    lines = []
    for line in Path("crates.txt").read_text().split("\n"):
        lines.append(line if line.startswith("#") else re.sub(rf"\b{OLD_CRATE}\b", NEW_CRATE, line))
    Path("crates.txt").write_text("\n".join(lines))


def report_falls(by_file):
    """Tells the names of ours that fall together in one file once they are respelled."""
    for path, names in sorted(by_file.items()):
        met = defaultdict(set)
        for name in names:
            met[spelled(name)].add(name)
        for new, olds in met.items():
            if len(olds) > 1:
                print(f"{path}: fall together as {new}: {' '.join(sorted(olds))}")


def main():
    if not Path("crates.txt").exists():
        sys.exit("respell: run it at the top of the repository")
    by_file = {p: declared(p) for p in antt_files()}
    everything = set().union(*by_file.values())
    ours = {n for n in everything if is_old(n)}
    report_falls(by_file)
    sources = source_names()
    for path in antt_files():
        turn_antt(path, ours, sources)
    for path in source_files():
        turn_source(path, ours)
    rename_crate()
    print(f"respell: {len(ours)} names")


main()
