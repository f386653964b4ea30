"""Which files a package has, and where: relative to the folder that it is in, which is /usr for a .deb."""

import ast
import gzip

from archives import File
from commit import Commit
from completions import bash_of, bash_of_tool, zsh_of
from elf import needs_of, packages_of
from front import HELP_FILE, Command, commands_of, filled, front_of
from manual_pages import main_pages, tool_page
from proof import Proof, proof_text, read
from tool_help import PYTHON, RUNNING, TOOLS, Help, help_of, renamed, told_by

# Here the modules of the tools look for the program, since it stands above them as ./tracesync does in a clone.
PROGRAM = "lib/tracesync/tracesync"
DOCUMENTS = "share/doc/tracesync"
# The package of Python, which stands beside the tools as in a clone, and by what the Python of a system finds it.
PYTHON_PACKAGE = "python/tracesync/"
PATH_FILE, PATH_LINE = "lib/python3/dist-packages/tracesync.pth", "../../tracesync/python\n"
# Pages for whoever uses the program, with the names that things have where they are installed; and folders and files that are packed as they are.
PAGES = ("docs/FORMATS.md", "docs/GUIDE.md", "docs/VANTAGE.md", "docs/LOGS.md", "docs/PROBLEMS.md", "docs/PERFORMANCE.md")
FOLDERS = ("docs/pictures/", "examples/")
KEPT = ("CHANGELOG.md", "docs/contradiction.svg", "docs/timeline-page.png", "docs/timeline.svg")


def text_of(path: str) -> str:
    with open(path, encoding="utf-8") as it:
        return it.read()


def imported(path: str) -> set[str]:
    """Returns the names of the modules that a file of Python names."""
    found = set()
    for it in ast.walk(ast.parse(text_of(path), path)):
        if isinstance(it, ast.Import):
            found |= {alias.name for alias in it.names}
        elif isinstance(it, ast.ImportFrom) and it.module:
            found.add(it.module)
    return found


def modules_behind(names: set[str], library: set[str]) -> set[str]:
    """Returns the files of the library that these names of modules mean: one file, or all of a folder of modules."""
    folders = tuple(f"{name.split('.')[0]}/" for name in names)
    return {f"{name}.py" for name in names} & library | {it for it in library if it.startswith(folders)}


def modules_of(top: str, files: list[str]) -> list[str]:
    """Returns the files of tools/lib that the tools stand on: the modules that they name, and other files whose names those have."""
    library = {it.removeprefix("tools/lib/") for it in files if it.startswith("tools/lib/")}
    found: set[str] = set()
    more = modules_behind({name for it in TOOLS for name in imported(f"{top}/tools/{it}")}, library)
    while more:
        found |= more
        more = modules_behind({name for it in more for name in imported(f"{top}/tools/lib/{it}")}, library) - found
    texts = [text_of(f"{top}/tools/lib/{it}") for it in found]
    return sorted(found | {it for it in library if not it.endswith(".py") and any(f'{it}"' in text for text in texts)})


class Tree:
    """The files of a package, by their paths."""

    def __init__(self, top: str, files: list[str], commit: Commit, program: bytes) -> None:
        self.top, self.files, self.commit, self.program = top, files, commit, program
        self.script, self.help = text_of(f"{top}/tracesync"), text_of(f"{top}/{HELP_FILE}")
        self.found = {PROGRAM: File(program, True)}
        self.commands: list[Command] = commands_of(self.help)
        self.texts = {it: told_by(top, it) for it in TOOLS}
        self.helps: dict[str, Help] = {it: help_of(text) for it, text in self.texts.items()}

    def template(self, name: str) -> str:
        return text_of(f"{self.top}/packaging/{name}")

    def put(self, path: str, text: str, is_run: bool = False) -> None:
        self.found[path] = File(text.encode(), is_run)

    def add_fronts(self, kit: str) -> None:
        """Adds what is called: the script for the program, and one for each tool."""
        version = f"tracesync {self.commit.version}, commit {self.commit.name}\n{kit}"
        self.put("bin/tracesync", front_of(self.script, self.template("tracesync.bash"), version), True)
        for it in TOOLS:
            text = filled(self.template("tool.sh"), TOOL=it, TAKESPROGRAM="yes" if it in RUNNING else "no", PYTHON=PYTHON)
            self.put(f"bin/tracesync-{it}", text, True)

    def add_tools(self) -> None:
        """Adds the tools and what they stand on; what they say names the tools as they are installed."""
        for it in TOOLS:
            self.put(f"lib/tracesync/tools/{it}", renamed(text_of(f"{self.top}/tools/{it}")), True)
            self.put(f"lib/tracesync/help/{it}", self.texts[it])
        for it in modules_of(self.top, self.files):
            self.put(f"lib/tracesync/tools/lib/{it}", renamed(text_of(f"{self.top}/tools/lib/{it}")))

    def add_python(self) -> None:
        """Adds the package of Python, on which the tools stand too."""
        for it in self.files:
            if it.startswith(PYTHON_PACKAGE):
                self.put(f"lib/tracesync/{it}", renamed(text_of(f"{self.top}/{it}")))
        self.put(PATH_FILE, PATH_LINE)

    def add_pages(self) -> None:
        """Adds the manual pages."""
        version, day, tools = self.commit.version, self.commit.day, list(TOOLS)
        pages = main_pages(renamed(text_of(f"{self.top}/docs/FORMATS.md")), self.help, version, day, tools)
        pages |= {f"tracesync-{it}.1": tool_page(it, self.helps[it], version, day, tools) for it in TOOLS}
        for name, text in pages.items():
            self.found[f"share/man/man{name[-1]}/{name}.gz"] = File(gzip.compress(text.encode(), 9, mtime=0))

    def add_completions(self) -> None:
        """Adds the completions; bash looks for a file of the name of what is completed."""
        flags = {it: own.flags for it, own in self.helps.items()}
        folder = "share/bash-completion/completions"
        self.put(f"{folder}/tracesync", bash_of(self.template("completion.bash"), self.commands))
        for it in TOOLS:
            self.put(f"{folder}/tracesync-{it}", bash_of_tool(self.template("tool-completion.bash"), it, flags[it]))
        self.put("share/zsh/vendor-completions/_tracesync", zsh_of(self.template("completion.zsh"), self.commands, flags))

    def add_documents(self, proof: Proof) -> None:
        """Adds the pages, the examples that they name, and what is known of the proof."""
        for it in PAGES:
            self.put(f"{DOCUMENTS}/{it}", renamed(text_of(f"{self.top}/{it}")))
        for it in (*KEPT, *(it for it in self.files if it.startswith(FOLDERS))):
            self.found[f"{DOCUMENTS}/{it}"] = File(read(f"{self.top}/{it}"))
        self.put(f"{DOCUMENTS}/PROOF.txt", proof_text(self.top, self.files, self.commit, proof, self.program, PROGRAM))


def tree_of(top: str, files: list[str], commit: Commit, program: bytes, proof: Proof) -> dict[str, File]:
    """Returns the files of a package of this commit and this program."""
    found = Tree(top, files, commit, program)
    found.add_fronts(proof.kit)
    found.add_tools()
    found.add_python()
    found.add_pages()
    found.add_completions()
    found.add_documents(proof)
    return found.found


def depends_of(program: bytes) -> list[str]:
    """Returns the packages that the program depends on. Raises ValueError where it needs more than the C library."""
    try:
        return packages_of(needs_of(program))
    except ValueError as why:
        raise ValueError(f"the program cannot be packed: {why}") from None


def control_of(top: str, commit: Commit, depends: list[str], kib: int) -> str:
    """Returns what dpkg is told of a package."""
    line = f"Depends: {', '.join(depends)}\n" if depends else ""
    return filled(text_of(f"{top}/packaging/control"), VERSION=commit.version, KIB=str(kib), DEPENDS=line, PYTHON=PYTHON)
