"""Holds the papers to the repository: the crates, files and wrong programs that they name are there.

README.md names every crate in its map. It and the papers in docs/ name files below crates/, functions, and in
PROMISES.md's columns of wrong programs `crate: label, label`, or `crate, crate: all`. Every public function but one
that only writes to standard error has a promise, and those that ask something of their callers are exactly the ones
that DECISIONS.md lists, none of them a call of the library. The definitions that PROMISES.md says a reader must believe
are all of specs/ but the files named
Inner.antt; they cite no other, and neither do the promises of the calls. Its table of refusals has every number. The
listing's own run is the sample. Each change request that GLOSSARY.md says is built has its page in docs/changes, and
no other has.
"""

import glob
import pathlib
import re
import sys

ROOT = pathlib.Path(__file__).resolve().parent.parent
# it writes to standard error, and no contract can say what a stream takes
WITHOUT_A_PROMISE = {("listing_input", "fail")}
CRATES = re.findall(r"^(\w+)(?: \w+)*:", (ROOT / "crates.txt").read_text(), re.M)
faults = []


def paper(name):
    return (ROOT / name).read_text(encoding="utf-8")


def crates_in_readme():
    for crate in CRATES:
        if f"`{crate}`" not in paper("README.md"):
            faults.append(f"README.md: no word of the crate {crate}")


def files_and_functions(name):
    for quoted in re.findall(r"`([^`\n]+)`", paper(name)):
        crate = re.match(r"(\w+)(/|::)", quoted)
        if not crate or crate[1] not in CRATES:
            continue
        if crate[2] == "/":
            for path in braces(quoted):
                if not glob.glob(str(ROOT / "crates" / path)):
                    faults.append(f"{name}: no crates/{path}")
        else:
            source = "".join(file.read_text(encoding="utf-8") for file in (ROOT / "crates" / crate[1] / "src").glob("*.rt"))
            for path in braces(quoted):
                function = re.split(r"\W", path.split("::")[-1])[0]
                if not re.search(rf"\bfn {function}\b", source):
                    faults.append(f"{name}: no function {path}")


def relative_paths(name):
    """Paths from the repository's root, as README has them."""
    for path in re.findall(r"`((?:crates|host|tests|bench|docs|samples)/[^`\s]*)`", paper(name)):
        if "/out/" not in path and not glob.glob(str(ROOT / path)):  # what rt builds is not there before
            faults.append(f"{name}: no {path}")


def braces(text):
    """`a/{b,c}` stands for a/b and a/c."""
    found = re.match(r"(.*)\{(.*)\}(.*)", text)
    if not found:
        return [text]
    return [found[1] + part.strip() + found[3] for part in found[2].split(",")]


def wrong_programs(name):
    named = set()
    for line in paper(name).splitlines():
        for crates, labels in re.findall(r"\b((?:\w+, )*\w+): ((?:\w+, )*\w+)(?= ?[|;,)]|$)", line):
            for crate in crates.split(", "):
                if crate not in CRATES:
                    continue
                for label in labels.split(", "):
                    edits = list((ROOT / "crates" / crate / "must-fail").glob("*.edit" if label == "all" else f"{label}.edit"))
                    if not edits:
                        faults.append(f"{name}: no wrong program {crate}: {label}")
                    named.update(edits)
    for edit in sorted(ROOT.glob("crates/*/must-fail/*.edit")):
        if edit not in named:
            faults.append(f"{name}: no word of {edit.relative_to(ROOT)}")


def public_functions():
    """Each public function of a library, and what stands between its name and its body."""
    for crate in CRATES:
        for file in sorted((ROOT / "crates" / crate / "src").rglob("*.rt")):
            text = re.sub(r"//[^\n]*", "", file.read_text(encoding="utf-8"))
            for function, clauses in signatures(text):
                yield crate, function, clauses


def signatures(text):
    """The name of each public function in a text, and what stands between it and the body; a clause may go over several lines."""
    text = re.sub(r"\b((?:requires|ensures|decreases)\*?(?: \w+)?) \{\n", r"\1 { ", text)
    return re.findall(r"\bpub (?:extern \"C\" )?fn (\w+)(.*?)\{\n", text, re.S)


def promises():
    listed = re.search(r"\*\*Private requirements\.\*\*(.*?) Their callers", paper("docs/DECISIONS.md"), re.S)[1]
    allowed = set()
    for quoted in re.findall(r"`(\w+::[^`]+)`", listed):
        allowed.update((path.split("::")[0], path.split("::")[-1]) for path in braces(quoted))
    asking = set()
    for crate, function, clauses in public_functions():
        if "ensures" not in clauses and (crate, function) not in WITHOUT_A_PROMISE:
            faults.append(f"{crate}::{function} promises nothing")
        if "requires" in clauses:
            asking.add((crate, function))
    for crate, function in sorted(asking - allowed):
        faults.append(f"docs/DECISIONS.md: no word that {crate}::{function} asks something")
    for crate, function in sorted(allowed - asking):
        faults.append(f"docs/DECISIONS.md: {crate}::{function} asks nothing")
    for crate, _, function in calls():
        if (crate, function) in asking:
            faults.append(f"{crate}::{function} is a call of the library, and asks something")


CITED = r"Rattle\.(\w+)\.specs\.(\w+)\.\{([^}]*)\}"


def believed():
    """The definitions that PROMISES.md lists, and what they and the promises of the calls cite."""
    section = re.search(r"## What a reader must believe(.*?)\n## ", paper("docs/PROMISES.md"), re.S)[1]
    listed = set(re.findall(r"`(\w+/specs/\w+\.antt)`", section))
    there = {
        str(file.relative_to(ROOT / "crates"))
        for file in ROOT.glob("crates/*/specs/*.antt")
        if file.name not in ("Lib.antt", "Inner.antt")
    }
    for path in sorted(listed ^ there):
        faults.append(f"docs/PROMISES.md: what must be believed and specs/ differ in {path}")
    for path in sorted(listed & there):
        text = (ROOT / "crates" / path).read_text(encoding="utf-8")
        for crate, module, _ in re.findall(CITED, text):
            if module == "Inner":
                faults.append(f"{path} cites {crate}/specs/Inner.antt")
    for crate, file, function in calls():
        source = file.read_text(encoding="utf-8")
        inner = {name.strip() for _, module, names in re.findall(CITED, source) if module == "Inner" for name in names.split(",")}
        for name, clauses in signatures(source):
            main = clauses.split("ensures")[1] if "ensures" in clauses else ""
            if name == function and inner & set(re.findall(r"[\w·-]+", main)):
                faults.append(f"{crate}::{function}: its first promise cites Inner.antt")


def calls():
    """The functions that `relay` passes on, and those of `relay_c`: crate, file, name."""
    used = re.findall(r"pub use ([\w:{}\s,]+);", (ROOT / "crates/relay/src/lib.rt").read_text(encoding="utf-8"))
    for path in [one for group in used for one in braces(" ".join(group.split()))]:
        parts = path.split("::")
        for file in (ROOT / "crates" / parts[0] / "src").glob("*.rt"):
            if re.search(rf"\bpub fn {parts[-1]}\b", file.read_text(encoding="utf-8")):
                yield parts[0], file, parts[-1]
    file = ROOT / "crates/relay_c/src/lib.rt"
    for function in re.findall(r'pub extern "C" fn (\w+)', file.read_text(encoding="utf-8")):
        yield "relay_c", file, function


def every_refusal():
    section = re.search(r"\n## Refusals\n(.*?)\n## ", paper("docs/PROMISES.md"), re.S)[1]
    numbers = set()
    for row in re.findall(r"^\| ([\d, to]+?)(?:, (?:in|of) [^|]*)? \|", section, re.M):
        for part in row.split(", "):
            first, _, last = part.partition(" to ")
            numbers.update(range(int(first), int(last or first) + 1))
    refusals = {*range(1, 26), 27, 28, 38}
    if numbers != refusals:
        faults.append(f"docs/PROMISES.md: no row for the refusals {sorted(refusals ^ numbers)}")


def sample():
    for ours, sample in (("stdin", "stream.bin"), ("stdout", "stream.txt")):
        if (ROOT / "crates/relay_log" / ours).read_bytes() != (ROOT / "samples" / sample).read_bytes():
            faults.append(f"crates/relay_log/{ours} is not samples/{sample}")


def changes():
    row = re.search(r"built so far: ([^;|]*)", paper("docs/GLOSSARY.md"))[1]
    built = {f"CR-{int(number):02}.md" for number in re.findall(r"CR (\d+)", row)}
    pages = {file.name for file in (ROOT / "docs/changes").iterdir()}
    for page in sorted(built ^ pages):
        faults.append(f"docs/GLOSSARY.md and docs/changes differ in {page}")
    for page in sorted(pages):
        for heading in ("## What moved", "## What stayed", "## Measured"):
            if heading not in paper(f"docs/changes/{page}").splitlines():
                faults.append(f"docs/changes/{page}: no {heading}")


crates_in_readme()
promises()
believed()
every_refusal()
sample()
changes()
for name in ("docs/PROMISES.md", "docs/DECISIONS.md", "docs/GLOSSARY.md"):
    files_and_functions(name)
for name in ("README.md", "docs/RUNNING.md"):
    relative_paths(name)
wrong_programs("docs/PROMISES.md")
print("\n".join(faults) or "the papers name what is there")
sys.exit(1 if faults else 0)
