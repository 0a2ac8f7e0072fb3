#!/usr/bin/env python3
"""Plants bugs in a crate, one at a time, and asks the checker:

    python3 tools/plant.py CRATE [--built N] [--seed N] [--only TEXT] [--jobs N]

Each bug is one small change in src/ of a copy of the tree: a comparison turned, a constant off by one, a sign or an
end exchanged, arguments exchanged, a statement dropped, a check left out, the answers of two cases exchanged.
Contracts, tests and comments are never touched. The bugs go round the functions of the crate, so that no function
gets a second one before each has had one, until so many stand that build. Where a bug changes a name that a proof
file cites, the file gets the new name, and where it takes the name away, the checker has to find a proof of its own:
so that no bug is refused for a name.

A row for each bug is printed as a table: where it stands, what it was and became, and whether it was refused, still
proved, or did not build; for a refusal also what could not be proved. A bug that is still proved means the same, or
shows a contract that is too weak.
"""
import argparse
import difflib
import os
import pathlib
import random
import re
import shutil
import subprocess
import tempfile
from concurrent.futures import ThreadPoolExecutor

TURNED = [
    (r" < ", " <= "), (r" <= ", " < "), (r" > ", " >= "), (r" >= ", " > "), (r" == ", " != "), (r" != ", " == "),
    (r" && ", " || "), (r" \|\| ", " && "), (r" \+ ", " - "), (r" - ", " + "), (r" \* ", " + "), (r" / ", " * "),
    (r"\.low\b", ".high"), (r"\.high\b", ".low"), (r"\bfloor\b", "ceiling"), (r"\bceiling\b", "floor"),
    (r"\.min\(", ".max("), (r"\.max\(", ".min("), (r"\.raise\(", ".lower("), (r"\.lower\(", ".raise("),
    (r"\btrue\b", "false"), (r"\bfalse\b", "true"), (r"\.is_some\(", ".is_none("), (r"\.is_none\(", ".is_some("),
    (r"\.is_ok\(", ".is_err("), (r"\.is_err\(", ".is_ok("),
    (r"if !", "if "), (r"if (?=[\w.()&, ]+ \{)(?!let )", "if !"),
    (r"\blots\(\)", "rules()"), (r"\brules\(\)", "lots()"), (r"\.first\b", ".length"), (r"\.length\b", ".first"),
    (r"\[\.\.", "[1.."), (r"\.saturating_sub\(", ".saturating_add("), (r"\.saturating_add\(", ".saturating_sub("),
]
CLAUSE = re.compile(
    r"^\s*(//|ghost |requires|ensures|use |pub use |pub mod|mod |#|pub struct|struct |pub enum|enum |impl|pub trait"
    r"|trait |where|\}|\) ->|\)$|\) \{$|prove!)"
)
FUNCTION = re.compile(r"^\s*(?:pub(?:\([a-z]+\))? )?(?:const )?(?:unsafe )?(?:extern \"C\" )?fn (\w+)")


def changes(line, following):
    """The changed forms of a line, each with what kind of bug it is."""
    for pattern, other in TURNED:
        for m in re.finditer(pattern, line):
            yield "turned", line[: m.start()] + other + line[m.end():]
    for m in re.finditer(r"(?<![\w.])(\d[\d_]*)(?![\w.]|u8|'|\])", line):
        n = int(m.group(1).replace("_", ""))
        yield "off by one", line[: m.start()] + str(n + 1) + line[m.end():]
        if n > 0:
            yield "off by one", line[: m.start()] + str(n - 1) + line[m.end():]
    for m in re.finditer(r"([(\[])([\w.&*]+), ([\w.&*]+)([)\]])", line):
        yield "exchanged", line[: m.start()] + f"{m.group(1)}{m.group(3)}, {m.group(2)}{m.group(4)}" + line[m.end():]
    if re.match(r"^\s+[\w.*\[\] +]+ [-+]?= .*;$", line) and "let " not in line:
        yield "dropped", ""
    if re.match(r"^\s+[\w.:]+\(.*\)\??;$", line) and "put_away" not in line:
        yield "dropped", ""
    if re.match(r"^\s+if .* \{$", line) and following.strip().startswith("return"):
        yield "check left out", re.sub(r"if .* \{$", "if false {", line)
    arm, other = re.match(r"^(\s+.* => )(.*),$", line), re.match(r"^\s+.* => (.*),$", following)
    if arm and other and arm.group(2) != other.group(1):
        yield "another case's answer", arm.group(1) + other.group(1) + ","


def candidates(crate):
    """All bugs, each with the function that it stands in."""
    for path in sorted((crate / "src").rglob("*.rt")):
        function, lines, braces = "", path.read_text().split("\n"), 0
        for number, line in enumerate(lines):
            if line.strip() == "#[cfg(test)]":
                break
            # a clause may go on over several lines, to the brace that ends it
            if braces > 0 or re.match(r"\s*(requires|ensures|ghost)\b", line):
                braces += line.count("{") - line.count("}")
                continue
            began = FUNCTION.match(line)
            if began:
                function = began.group(1)
            if began or not line.strip() or CLAUSE.match(line):
                continue
            following = lines[number + 1] if number + 1 < len(lines) else ""
            for changed, kind in {to: kind for kind, to in changes(line, following) if to != line}.items():
                yield path.relative_to(crate), function, number, changed, line, kind


def round_the_functions(bugs, seed):
    """The bugs in turn: one of each function, then a second one of each, and so on."""
    by_function, chance = {}, random.Random(seed)
    for bug in bugs:
        by_function.setdefault((bug[0], bug[1]), []).append(bug)
    groups = list(by_function.values())
    chance.shuffle(groups)
    for group in groups:
        chance.shuffle(group)
    for turn in range(max(map(len, groups), default=0)):
        yield from (group[turn] for group in groups if turn < len(group))


def checked(crate):
    command = ["nice", "-n", "5", "rt"] + (["try"] if (crate / "src/main.rt").exists() else ["check"])
    run = subprocess.run(command, cwd=crate, capture_output=True, text=True)
    return run.returncode == 0, run.stdout + run.stderr


def mended(crate, said):
    """Where an answer of a proof file cites a name that the bug has changed, it gets the new one; where the bug has
    taken the name away, the answer goes, and the checker looks for one of its own. Says whether any file was
    changed."""
    any_was = False
    cited = r"^\./(proofs/\S+/Answers\.antt):\d+:\d+: error: `([\w-]+)`: (.*has no .*)"
    for place, answer, rest in re.findall(cited, said, re.M):
        text = (crate / place).read_text()
        old = (re.findall(r"Goals` has no `([\w-]+)`", rest) or [answer])[0]
        lines = re.findall(r"`Goals` has no `" + re.escape(old) + r"`; rattle asks for (.*)", said)
        asked = [name for line in lines for name in re.findall(r"`([\w-]+)`", line)]
        fresh = [name for name in asked if not re.search(r"(?<![\w-])" + name + r"(?![\w-])", text)]
        new = difflib.get_close_matches(old, fresh, 1, 0.7)
        if new:
            text = re.sub(r"(?<![\w-])" + old + r"(?![\w-])", new[0], text)
        else:
            parts = [part for part in text.split("\n\n") if not re.search(r"^(pub )?" + answer + " :", part, re.M)]
            text = "\n\n".join(parts)
        any_was = any_was or text != (crate / place).read_text()
        (crate / place).write_text(text)
    return any_was


def why(said):
    """The first thing that could not be proved: by a proof file's answer, or a fact asked at a place in src/."""
    for line in said.split("\n"):
        m = re.match(r"^\./(proofs/\S+?)/(?:Answers|Proof|Invariants)\.antt:\d+:\d+: error: `([\w-]+)`", line)
        if m:
            return f"`{m.group(2)}` of {m.group(1)}"
        m = re.match(r"^\S*: ?note: (src/\S+?): it is not proved that (.*?)(;|$)", "x: " + line)
        if m:
            return f"{m.group(1)}: not proved that {m.group(2)}"
        m = re.match(r"^(?:note: )?(\S*(?:src|proofs)/\S+?):? .*(error.*|not proved.*|must prove.*)", line)
        if m:
            return f"{m.group(1)} {m.group(2)}"[:160]
    stuck = re.findall(r"^fn (\S+): (not proved|no proof)", said, re.M)
    return f"{stuck[0][0]}: {stuck[0][1]}" if stuck else ""


def standing_on(tree, name):
    """The libraries that stand on a crate, lowest first."""
    text = (tree / "crates.txt").read_text()
    lines = [line.split(":") for line in text.split("\n") if ":" in line and not line.startswith("#")]
    above = [head.split()[0] for head, deps in lines if name in deps.split()]
    library = lambda crate: (tree / "crates" / crate / "src/lib.rt").exists()
    return [crate for crate in above if not crate.endswith("_tests") and library(crate)]


def planted(tree, name, bug):
    """What the checker says of one bug in a tree, which is afterwards as it was. A constant that its crate lets
    through is tried on the crates above, of which no contract shields them."""
    path, _, number, changed, line, _ = bug
    crate = tree / "crates" / name
    source, proofs = (crate / path).read_text(), {p: p.read_text() for p in (crate / "proofs").rglob("*.antt")}
    lines = source.split("\n")
    lines[number] = changed
    (crate / path).write_text("\n".join(lines))
    proved, said = checked(crate)
    for _ in range(4):
        if proved or not mended(crate, said):
            break
        proved, said = checked(crate)
    refused_above = ""
    if proved and re.search(r"\bconst \w+:", line):
        refusing = (above for above in standing_on(tree, name) if not checked(tree / "crates" / above)[0])
        refused_above = next(refusing, "")
    (crate / path).write_text(source)
    for p, text in proofs.items():
        if p.read_text() != text:
            p.write_text(text)
    if refused_above:
        return "refused above", f"the proof of {refused_above}"
    if proved:
        return "STILL PROVED", ""
    if re.search(r"error\[", said):
        return "did not build", re.search(r"error\[.*", said).group(0)[:120]
    if not re.search(r"not proved that|did not prove|error: (?!.*has no )", said):
        return "refused by a name", why(said)
    if "the library" in said and "did not build" in said or "logic=not-proved" not in said:
        return "NOT JUDGED", said.strip().split("\n")[-1][:160]
    return "refused", why(said)


def main():
    asked = argparse.ArgumentParser(description=__doc__.split("\n")[0])
    asked.add_argument("crate")
    asked.add_argument("--built", type=int, default=12, help="how many bugs that build")
    asked.add_argument("--seed", type=int, default=1)
    asked.add_argument("--only", default="", help="only lines with this text")
    asked.add_argument("--jobs", type=int, default=2, help="copies that are checked at a time")
    asked.add_argument("--list", action="store_true", help="only tell how many places there are")
    asked = asked.parse_args()
    root = pathlib.Path(__file__).resolve().parent.parent
    bugs = [bug for bug in candidates(root / "crates" / asked.crate) if asked.only in bug[4]]
    print(f"{len(bugs)} places in {len({bug[:2] for bug in bugs})} functions", flush=True)
    if asked.list:
        return
    print(f"\n| {asked.crate} | in | kind | was | became | answer | by |\n|---|---|---|---|---|---|---|", flush=True)
    counts, bugs = {}, iter(list(round_the_functions(bugs, asked.seed)))
    built = lambda: sum(n for answer, n in counts.items() if answer not in ("did not build", "NOT JUDGED"))

    def work(room):
        tree = pathlib.Path(room)
        shutil.copytree(root / "crates", tree / "crates", ignore=shutil.ignore_patterns("out", "must-fail"))
        shutil.copy(root / "crates.txt", tree)
        while built() < asked.built and (bug := next(bugs, None)):
            path, function, number, changed, line, kind = bug
            answer, by = planted(tree, asked.crate, bug)
            counts[answer] = counts.get(answer, 0) + 1
            row = [f"{path}:{number + 1}", function, kind, f"`{line.strip()}`", f"`{changed.strip()}`", answer, by]
            print("| " + " | ".join(cell.replace("|", "\\|") for cell in row) + " |", flush=True)

    scratch = tempfile.TemporaryDirectory(dir=os.environ.get("TMPDIR"))
    with ThreadPoolExecutor(asked.jobs) as pool, scratch as room:
        rooms = [pathlib.Path(room) / str(job) for job in range(asked.jobs)]
        list(pool.map(work, rooms))
    print(f"\n{asked.crate}: {built()} built: " + ", ".join(f"{n} {answer}" for answer, n in sorted(counts.items())))


if __name__ == "__main__":
    main()
