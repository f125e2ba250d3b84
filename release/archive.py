"""Puts a release together, and writes it as an archive whose bytes depend on nothing but the files that go into it."""

import dataclasses
import datetime
import gzip
import hashlib
import io
import pathlib
import subprocess
import tarfile
import tempfile

from release import pages, programs, proved
from release.programs import Lacking

# scripts that want the toolchain or the sources, and have no use without them
AT_HOME = ("wanda-build", "wanda-release", "wanda-test", "wanda-unproved")
# what a script calls by itself, and nobody else
INNER = ("wanda-launch", "wanda-watched")
# scripts that have modules of their own in a folder beside them
MODULES = {"wanda-fun": "fun"}
COMPLETED = ("wanda-all", "wanda-explain", "wanda-fun", "wanda-hunt", "wanda-page")
DOCUMENTS = "share/doc/wanda"
# folders beside this file, and where they go
FOLDERS = {"libc": "libexec/wanda/libc", "vim": "share/vim/vimfiles", "vscode": "share/wanda/vscode"}


@dataclasses.dataclass
class Entry:
    """A file of the archive, or a link where there is a target."""

    data: bytes = b""
    is_program: bool = False
    target: str = ""


def git(top, *words):
    """What git prints."""
    try:
        ran = subprocess.run(["git", "-C", top, *words], stdin=subprocess.DEVNULL, capture_output=True, check=True)
    except (OSError, subprocess.CalledProcessError) as fault:
        raise Lacking(f"a release names its commit, and git can't tell that of {top}: {fault}") from fault
    return ran.stdout.decode()


def commit_of(top):
    """The commit, its day in UTC, and its time in seconds."""
    name, seconds = git(top, "show", "-s", "--format=%H %ct", "HEAD").split()
    day = datetime.datetime.fromtimestamp(int(seconds), datetime.timezone.utc).strftime("%Y-%m-%d")
    return name, day, int(seconds)


def version(top):
    """The line that tells the state of the sources."""
    name, day, _ = commit_of(top)
    return f"wanda {day}, commit {name[:12]}"


def read_tree(top):
    """The state of the repository, and the time of its commit."""
    name, day, seconds = commit_of(top)
    files = [top / name for name in git(top, "ls-files", "-z").split("\0") if name]
    files = [file for file in files if file.is_file() and not file.is_symlink()]
    sums = {str(file.relative_to(top)): hashlib.sha256(file.read_bytes()).hexdigest() for file in files}
    # a new file counts where the prover would read it
    changes = git(top, "status", "--porcelain", "-uno") + git(top, "ls-files", "-o", "--exclude-standard", "crates")
    return proved.Tree(name, day, bool(changes), sums), seconds


def tracked(top, tree, folder):
    """The files below a folder that belong to the repository, by their paths from that folder."""
    inside = f"{(top / folder).resolve().relative_to(top)}/"
    return {path[len(inside) :]: top / path for path in sorted(tree.sums) if path.startswith(inside)}


def copies(top, tree, folder, to):
    """The files below a folder of the repository, to go below another one in the archive."""
    return {f"{to}/{path}": Entry(file.read_bytes()) for path, file in tracked(top, tree, folder).items()}


def scripts_of(top, tree):
    """The scripts for users in bin/, and those and the modules that they call in libexec/."""
    made = {}
    for name in sorted(it for it in tree.sums if it.startswith("wanda") and "/" not in it and it not in AT_HOME):
        is_inner = name in INNER or name in MODULES
        made[f"{'libexec/wanda' if is_inner else 'bin'}/{name}"] = Entry((top / name).read_bytes(), is_program=True)
        if name in MODULES:
            made[f"bin/{name}"] = Entry(target=f"../libexec/wanda/{name}")
            made.update(copies(top, tree, MODULES[name], f"libexec/wanda/{MODULES[name]}"))
    return made


def programs_of(found, libraries):
    """The programs, what starts them, and the loader and the libraries that they are started with."""
    made = {}
    start = Entry((pages.HERE / "start").read_bytes(), is_program=True)
    for program in found:
        made[f"libexec/wanda/{program.name}"] = start
        made[f"libexec/wanda/programs/{program.name}"] = Entry(program.data, is_program=True)
    for name, data in libraries.items():
        made[f"libexec/wanda/libc/{name}"] = Entry(data, is_program=True)
    return made


def manuals(tree):
    """The manual pages of the commands that there are, with the date and the commit in their feet."""
    made = {}
    for file in sorted(it for it in (pages.HERE / "man").glob("*.1") if it.stem in tree.sums):
        text = file.read_text(encoding="utf-8").replace("@DATE@", tree.date).replace("@COMMIT@", tree.commit[:12])
        made[f"share/man/man1/{file.name}"] = Entry(text.encode())
    return made


def completions(scripts):
    """The completions, where the shells look for them."""
    folder, here = "share/bash-completion/completions", pages.HERE / "completions"
    made = {
        f"{folder}/wanda": Entry((here / "wanda.bash").read_bytes()),
        "share/zsh/site-functions/_wanda": Entry((here / "_wanda").read_bytes()),
        "share/fish/vendor_completions.d/wanda.fish": Entry((here / "wanda.fish").read_bytes()),
    }
    made.update({f"{folder}/{it}": Entry(target="wanda") for it in COMPLETED if f"bin/{it}" in scripts})
    return made


def documents(top, tree):
    """The pages as HTML, and the examples."""
    with tempfile.TemporaryDirectory(prefix="wanda-pages-") as room:
        pages.Site(top, "../examples").write(room)
        files = [file for file in pathlib.Path(room).rglob("*") if file.is_file()]
        made = {f"{DOCUMENTS}/html/{file.relative_to(room)}": Entry(file.read_bytes()) for file in files}
    return {**made, **copies(top, tree, "examples", f"{DOCUMENTS}/examples")}


def links_at_top(scripts):
    """Links by which the commands of README, which are called from the top of the repository, run here too."""
    made = {name[len("bin/") :]: Entry(target=name) for name in scripts if name.startswith("bin/")}
    return {**made, "examples": Entry(target=f"{DOCUMENTS}/examples"), "PROVED": Entry(target=f"{DOCUMENTS}/PROVED")}


def collect(top, found, libraries, tree):
    """All of the release but the file PROVED, by path."""
    scripts = scripts_of(top, tree)
    entries = {**scripts, **programs_of(found, libraries), **manuals(tree), **completions(scripts)}
    entries.update(documents(top, tree))
    for folder, to in FOLDERS.items():
        entries.update(copies(top, tree, f"release/{folder}", to))
    entries.update(links_at_top(scripts))
    entries["README"] = Entry((pages.HERE / "README").read_bytes())
    return entries


def member(path, entry, seconds):
    """The head of a file in the archive: its owner is number 0 without a name, and its time that of the commit."""
    head = tarfile.TarInfo(path)
    head.mtime, head.mode = seconds, 0o755 if entry.is_program else 0o644
    if entry.target:
        head.type, head.linkname, head.mode = tarfile.SYMTYPE, entry.target, 0o777
    else:
        head.size = len(entry.data)
    return head


def folders_above(paths):
    """All folders of some paths."""
    return {str(folder) for path in paths for folder in pathlib.PurePosixPath(path).parents if str(folder) != "."}


def write_archive(entries, name, seconds, file):
    """Writes the archive: one folder of that name, all in the order of the paths."""
    packed = io.BytesIO()
    with tarfile.open(fileobj=packed, mode="w", format=tarfile.GNU_FORMAT) as archive:
        for path in sorted([*entries, *folders_above(entries), ""]):
            whole = f"{name}/{path}".rstrip("/")
            if path in entries:
                archive.addfile(member(whole, entries[path], seconds), io.BytesIO(entries[path].data))
            else:
                head = member(whole, Entry(is_program=True), seconds)
                head.type = tarfile.DIRTYPE
                archive.addfile(head)
    with open(file, "wb") as output, gzip.GzipFile("", "wb", 9, output, seconds) as shrunk:
        shrunk.write(packed.getvalue())


def make(top, folder, kit_name, kit, log):
    """Makes the archive in a folder. Returns its path, the first line of PROVED and the crates that are not in it."""
    found, lacking = programs.built_programs(top)
    libraries = programs.libraries_for(found, kit / "toolchain" / "lib")
    tree, seconds = read_tree(top)
    entries = collect(top, found, libraries, tree)
    sums = {path: hashlib.sha256(entry.data).hexdigest() for path, entry in entries.items() if not entry.target}
    gate = proved.read_gate(log) if log is not None else None
    entries[f"{DOCUMENTS}/PROVED"] = Entry(proved.text(tree, kit_name, gate, found, sums).encode())
    name = f"wanda-{tree.date}-x86_64-linux"
    folder.mkdir(parents=True, exist_ok=True)
    file = folder / f"{name}.tar.gz"
    write_archive(entries, name, seconds, file)
    return file, proved.first_line(tree, gate, found), lacking
