"""What a release and an installation consist of: the built program, its page of the manual and completions, the documents that a user reads,
the examples, the tools that draw and explain, the files for editors, and what it was proved from."""
import commands
import program

DOCUMENTS = ["README.md"] + [f"docs/{name}.md" for name in ("TUTORIAL", "LANGUAGE", "SEMANTICS", "FORMATS", "TESTING", "COMPARISON", "PROMISES", "TRUST", "GLOSSARY")]
# The tools that are called, and what they are made of.
TOOLS = ["check_offers", "check_proof", "convert", "draw", "explain", "page", "simulate", "walks"]
MODULES = ["boxes", "charts", "commands", "data", "diagrams", "meetings", "offered", "pages", "reach", "refusals", "running", "scripts", "simulation", "simulation_view", "specification", "steps", "traces", "values", "why"]
SHARE = "share/doc/habuxelo"


def beside():
    """The files beside the program that are as they stand here, each with its place below SHARE, and whether it can be run."""
    for name in DOCUMENTS:
        yield name, program.TOP / name, False
    for name in TOOLS:
        yield f"tools/{name}", program.TOP / "tools" / name, True
    for name in MODULES:
        yield f"tools/{name}.py", program.TOP / f"tools/{name}.py", False
    for name in ("tools/page.html", "docs/pictures/page.png"):
        yield name, program.TOP / name, False
    for folder in ("examples", "editors"):
        for path in program.files_below(program.TOP / folder):
            if path.suffix != ".pyc":
                yield str(path.relative_to(program.TOP)), path, path == program.TOP / "editors/server"


def parts():
    """The files, each with its place, or with its text where it is made here; and whether it can be run. Refuses where the program isn't built of the sources as they stand."""
    line = program.wanted_kit()
    if not program.is_current(line):
        raise program.Lacking("the program isn't built of the sources as they stand: run tools/build first")
    rows = program.NOTE.read_text(encoding="utf-8").splitlines()
    files = "".join(f"{row.removeprefix('file ')}\n" for row in rows if row.startswith("file "))
    crates = "".join(f"{row.removeprefix('crate ')}\n" for row in rows if row.startswith("crate "))
    yield "bin/lotos", program.PROGRAM.read_bytes(), True
    yield "share/man/man1/lotos.1", commands.page().encode(), False
    yield "share/bash-completion/completions/lotos", commands.completions().encode(), False
    for name, path, is_program in beside():
        yield f"{SHARE}/{name}", path.read_bytes(), is_program
    yield f"{SHARE}/proved/kit", f"{line}\n".encode(), False
    yield f"{SHARE}/proved/crates.txt", crates.encode(), False
    yield f"{SHARE}/proved/SHA256SUMS", files.encode(), False
