"""What belongs to the program for whoever uses it, and where it is installed below a folder.

files(site)     each file of the checkout, its place, and its mode; site is where Python looks for modules
links(site)     each link, and where it leads
documents()     README.md and what it leads to
tools()         the tools for users of the program, and TOP of this checkout
"""

import glob
import os

TOP = os.path.dirname(os.path.dirname(os.path.dirname(os.path.realpath(__file__))))
# what only serves who changes the program
FOR_DEVELOPERS = "build cases gate-minutes check-docs check-transcripts definitions forge mutate refuse-growths release test try-release".split()
FOR_RELEASES = ("built.py", "elf.py", "forged.py", "shipped.py")
PROGRAM = "lib/qroute/qroute"


def found(pattern):
    return sorted(glob.glob(pattern, root_dir=TOP, recursive=True))


def tools():
    """The names of the tools that use the program or what it writes, `install` aside."""
    names = [os.path.basename(it) for it in found("tools/*") if os.path.isfile(os.path.join(TOP, it))]
    return [it for it in names if it not in FOR_DEVELOPERS and it != "install"]


def parts_of_tools():
    """What the tools take from beside them."""
    return [*found("tools/lib/*.py"), *found("tools/lib/*.html")]


def module():
    """The files of the Python module."""
    return [*found("python/qroute/**/*.py"), "python/qroute/py.typed"]


def documents():
    return [it for it in ("README.md", "CHANGELOG.md", *found("docs/*.md"), *found("docs/*.svg")) if os.path.exists(os.path.join(TOP, it))]


def files(site):
    """Each file that is installed: its path in the checkout, its place below the folder, and its mode."""
    yield "out/qroute", PROGRAM, 0o755
    yield "tools/lib/command.sh", "bin/qroute", 0o755
    yield "docs/qroute.1", "share/man/man1/qroute.1", 0o644
    yield "tools/completions/qroute.bash", "share/bash-completion/completions/qroute", 0o644
    yield "tools/completions/_qroute", "share/zsh/site-functions/_qroute", 0o644
    yield "tools/completions/qroute.fish", "share/fish/vendor_completions.d/qroute.fish", 0o644
    for path in module():
        yield path, f"{site}/{path.removeprefix('python/')}", 0o644
    for path in found("devices/*.toml"):
        yield path, f"share/qroute/{path}", 0o644
    for path in ("docs/report.schema.json", "LICENSE", "NOTICE", "VERSION"):
        yield path, f"share/qroute/{os.path.basename(path)}", 0o644
    for name in tools():
        yield f"tools/{name}", f"share/qroute/tools/{name}", 0o755
    for path in parts_of_tools():
        if os.path.basename(path) not in FOR_RELEASES:
            yield path, f"share/qroute/{path}", 0o644
    for path in documents():
        yield path, f"share/doc/qroute/{path}", 0o644


def links(site):
    """Each link: its place, and where it leads from there."""
    for name in tools():
        yield f"bin/qroute-{name}", f"../share/qroute/tools/{name}"
    # the tools find the module beside them, as in a checkout
    yield "share/qroute/python/qroute", f"../../../{site}/qroute"
