"""What the scripts beside this one share: the tree's crates by layer, and a made document that is written or checked."""
import pathlib, re, sys

TOP = pathlib.Path(__file__).resolve().parent.parent


def layers():
    """The layers of crates.txt, lowest first, each a name and its crates in their order. A layer begins with a line `# == NAME ==`."""
    found = [["crates", []]]
    for line in (TOP / "crates.txt").read_text().splitlines():
        heading, crate = re.match(r"#\s*==\s*(.*?)\s*==", line), re.match(r"(\w+)(?: staticlib)?:", line)
        if heading:
            found.append([heading.group(1), []])
        elif crate:
            found[-1][1].append(crate.group(1))
    return [(name, crates) for name, crates in found if crates]


def crates():
    return [crate for _, those in layers() for crate in those]


def clauses(signature):
    """The clauses of a function's signature, each as (word, name, fact)."""
    return [m.groups() for m in re.finditer(r"(?ms)^\s+(requires|ensures)(?: (\w+))? \{ (.*?) \}$", signature)]


def write_or_check(document, text, by):
    """Writes the document, or with --check says whether it is what would be written: exit 1 where it is not."""
    path = TOP / document
    if "--check" not in sys.argv[1:]:
        path.write_text(text)
        print(f"{by}: wrote {document}")
    elif not path.exists() or path.read_text() != text:
        sys.exit(f"{by}: {document} is not what the tree says: run {by}")
    else:
        print(f"{by}: {document} is as the tree says")
