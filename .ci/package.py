#!/usr/bin/env python3
"""Tries what tools/package and tools/release make: the Debian package and the tar file of eds.

  .ci/package.py

That a package is made of a proved program alone; what VERSION is; that the same octets are made again in another folder, by
another user's settings; what lintian and the checkers of manuals say; and that each package is installed, run, replaced by
the next version and removed, and leaves nothing: the Debian package in an empty root by `dpkg --root` and, for root, in a
system that debootstrap makes in ~/.cache/eds-clean-root and that is kept there; the tar file below a prefix. Run means that all
examples print what they have to, and that each tool does the same there as in the repository.

What the machine lacks for one of these is named, and that part is passed over. The environment's EDS may name a program to be
packaged in the place of the proved one.
"""

import os
import re
import shutil
import subprocess
import sys
import tempfile

TOP = os.path.dirname(os.path.dirname(os.path.abspath(__file__)))
BUILT = "crates/eds_prog/out/eds_prog"
STAMP = "crates/eds_prog/out/built-for-eds"
CLEAN = os.path.expanduser("~/.cache/eds-clean-root")
MIRROR, SUITE = "http://deb.debian.org/debian", "bookworm"
# What the packaging system itself writes in a root.
OF_DPKG = ("./var/lib/dpkg", "./var/log", "./var/cache")
# What each tool is asked for in the folder of the pages. Where it reads lines, they are those of the recording.
RECORDING = ["Space/Packet", "examples/split/packets.bin", "examples/ccsds/sheet.json"]
ASKED = {
    "dissector": ["--port", "4321", "Tank/Packet", "examples/recordings/tank.json"],
    "page": ["examples/flat/sheet.json"],
    "plot": ["SeqCount"],
    "recording": RECORDING,
    "recordings": ["--workers", "1", "--sheet", RECORDING[2], *RECORDING[:2]],
    "sheet-from-xml": ["examples/xml/wheel.xml"],
    "table": [],
    "timeline": ["examples/bus/alone.script", "examples/bus/sheet.json"],
    "types": ["examples/flat/sheet.json"],
    "where": ["0:3", "examples/flat/sheet.json"],
}
# How a tool says that a library of Python is not there.
LACKS = re.compile(r"apt-get install python3-")
counts = {True: 0, False: 0}


def hold(is_well, what):
    counts[bool(is_well)] += 1
    if not is_well:
        print(f"package: {what}", flush=True)
    return is_well


def skipped(what, lacking):
    print(f"package: {what} is passed over, since {lacking} is not here", flush=True)


def run(words, folder=TOP, settings=None, **how):
    """What a command prints on both streams, and its status."""
    given = {"stdin": subprocess.DEVNULL, "stdout": subprocess.PIPE, "stderr": subprocess.STDOUT, "check": False}
    if "input" in how:
        del given["stdin"]
    ran = subprocess.run(words, cwd=folder, env=dict(os.environ, **(settings or {})), **(given | how))
    return ran.stdout.decode(errors="replace"), ran.returncode


def must(words, folder=TOP, settings=None):
    """What a command prints that may not fail."""
    printed, status = run(words, folder, settings)
    if status:
        raise RuntimeError(f"{' '.join(words)}: {printed}")
    return printed.strip()


def octets(name):
    with open(name, "rb") as file:
        return file.read()


def text(name):
    return octets(os.path.join(TOP, name)).decode()


class Copy:
    """A copy of the repository as it stands, in which a program may count as proved."""

    def __init__(self, at, source=TOP):
        self.at = at
        must(["git", "clone", "-q", source, at])
        must(["git", "config", "user.name", "gate"], at)
        must(["git", "config", "user.email", "gate@localhost"], at)
        for name in must(["git", "ls-files", "-m", "-o", "--exclude-standard"], source).split():
            if os.path.isfile(os.path.join(source, name)):
                os.makedirs(os.path.dirname(os.path.join(at, name)), exist_ok=True)
                shutil.copy(os.path.join(source, name), os.path.join(at, name))
        if must(["git", "status", "--porcelain"], at):
            self.commit("as it stands")
        os.makedirs(os.path.join(at, os.path.dirname(BUILT)))

    def commit(self, why):
        must(["git", "add", "-A"], self.at)
        must(["git", "commit", "-q", "--allow-empty", "-m", why], self.at)

    def give(self, program, stamp):
        """Lays a program there, with a stamp that is so many seconds younger than all sources, or with none."""
        shutil.copy(program, os.path.join(self.at, BUILT))
        if stamp is not None:
            newest = max(os.stat(os.path.join(at, it)).st_mtime for at, _, names in os.walk(f"{self.at}/crates") for it in names)
            with open(os.path.join(self.at, STAMP), "w", encoding="utf-8"):
                pass
            os.utime(os.path.join(self.at, STAMP), (newest + stamp,) * 2)

    def package(self, folder, settings=None, mask=0o022):
        """What tools/package prints, and its status."""
        before = os.umask(mask)
        try:
            return run(["tools/package", folder], self.at, {"EDS_UNPROVED": "", **(settings or {})})
        finally:
            os.umask(before)


def packages(folder):
    """The Debian package and the tar file in a folder."""
    names = sorted(os.listdir(folder))
    return [os.path.join(folder, it) for end in (".deb", ".tar.gz") for it in names if it.endswith(end)]


def hold_refusals(copy, program, room):
    """Only a proved program of these sources is packaged."""
    refused = ("package: there is no proved program of these sources: tools/build proves and builds it\n", 1)
    for what, given in (("no program", None), ("a program without a stamp", (program, None)), ("a stale program", (program, -60))):
        if given:
            copy.give(*given)
        hold(copy.package(f"{room}/none") == refused and not os.path.exists(f"{room}/none"), f"{what} was packaged")


def hold_versions(copy, room):
    """VERSION by tags and commits. The package's name alone is looked at, so the program is a small one."""
    found = []
    commits = must(["git", "rev-list", "--count", "HEAD"], copy.at)
    for tag, changed in ((None, False), ("v1.2", False), (None, True), ("v1.3-rc1", False)):
        if tag:
            must(["git", "tag", tag], copy.at)
        if changed:
            copy.commit("one more")
            with open(os.path.join(copy.at, "README.md"), "a", encoding="utf-8") as file:
                file.write("\n")
        code = f"import runpy, sys; sys.path.insert(0, '{copy.at}/tools'); print(runpy.run_path('{copy.at}/tools/package', run_name='package')['version']())"
        found.append(must([sys.executable, "-B", "-c", code], copy.at))
        must(["git", "checkout", "-q", "README.md"], copy.at)
    wanted = [f"0.0+{commits}", "1.2", "1.2+1+changed", "1.3~rc1"]
    hold(found == wanted, f"versions are {found} and not {wanted}")
    rising = [wanted[0], "1.2", "1.2+1", "1.2+1+changed", "1.2.1", "1.3~rc1", "1.3"]
    if shutil.which("dpkg"):
        wrong = [it for it in zip(rising, rising[1:]) if run(["dpkg", "--compare-versions", it[0], "lt", it[1]])[1]]
        hold(not wrong, f"versions don't rise: {wrong}")


def hold_needs(package, program):
    """The package names the C library and the processor that INSTALL names, and the program needs no more."""
    glibc, processor = re.search(r"glibc (\d+)\.(\d+) or later, on (\S+) Linux", text("docs/INSTALL.md")).group(0, 3)
    glibc = tuple(map(int, re.findall(r"\d+", glibc)[:2]))
    needed = [tuple(map(int, it.split(b"."))) for it in re.findall(rb"GLIBC_(\d+\.\d+)", octets(program))]
    hold(max(needed, default=(0, 0))[:2] <= glibc, f"the program needs a C library {max(needed, default=())}")
    hold(octets(program)[18:20] == b"\x3e\0" and processor == "x86-64", "the program is for another processor")
    depends = must(["dpkg-deb", "-f", package, "Depends", "Architecture"])
    hold(depends == f"Depends: libc6 (>= {glibc[0]}.{glibc[1]})\nArchitecture: amd64", f"the package needs:\n{depends}")


def hold_texts():
    """The copyright file names each library of the toolchain that the crates name."""
    named = re.findall(r"^eds_\w+: (.*)", text("crates.txt"), re.M)
    libraries = {it for line in named for it in line.split() if not it.startswith("eds_")} - {"anyhow"}
    about = text("packaging/copyright")
    lacking = [it for it in sorted(libraries) if not re.search(rf"\b{it}\b", about)]
    hold(libraries and not lacking, f"packaging/copyright does not name {lacking}")


def hold_lint(package, room):
    if shutil.which("lintian"):
        printed, status = run(["lintian", "--allow-root", "--fail-on", "error,warning", "--info", package])
        wrong = [it for it in printed.splitlines() if re.match("[EW]: ", it) or "unused-override" in it or "mismatched-override" in it]
        hold(not status and not wrong, f"lintian:\n{printed}")
    else:
        skipped("lintian", "lintian")
    must(["dpkg-deb", "-x", package, f"{room}/lint"])
    manuals = f"{room}/lint/usr/share/man"
    for name in sorted(os.listdir(f"{manuals}/man1")):
        at = f"{manuals}/man1/{name}"
        if shutil.which("mandoc"):
            # (what it says of other manuals is of those of this machine)
            printed, _ = run(["mandoc", "-T", "lint", at])
            said = [it for it in printed.splitlines() if "mandoc.db" not in it and "referenced manual not found" not in it]
            hold(not said, f"mandoc: {said}")
        if shutil.which("man"):
            printed, status = run(["man", "--warnings=w", "-E", "UTF-8", "-l", at], stdout=subprocess.PIPE, stderr=subprocess.PIPE)
            hold(not status and name.split(".")[0].upper() in printed, f"man does not show {name}")
    named = set(re.findall(r"^\.Xr (eds\S*) 1", text("docs/eds.1"), re.M))
    lacking = [it for it in sorted(named) if not os.path.exists(f"{manuals}/man1/{it}.1.gz")]
    hold(not lacking, f"the manual names {lacking}, which have none")
    for it in ("mandoc", "man"):
        if not shutil.which(it):
            skipped("a look at the manuals", it)


def listing(root):
    """All that lies in a root, without what the packaging system writes there."""
    found = set()
    for at, folders, names in os.walk(root):
        short = os.path.relpath(at, root)
        here = "." if short == "." else f"./{short}"
        folders[:] = [it for it in folders if f"{here}/{it}" not in OF_DPKG and here != "./proc"]
        found.update(f"{here}/{it}" for it in folders + names)
    return found


def hold_runs(at, inside, where):
    """Has what is installed at a folder do its work. The folder's name for the commands, run by inside, may be another one."""
    doc = f"{at}/share/doc/eds"
    words = sorted(os.path.join(folder, it) for folder, _, names in os.walk(f"{doc}/examples") for it in names if it.endswith(".words"))
    wrong = []
    for name in words:
        front = name.removesuffix(".words")
        wanted = octets(f"{front}.stdout").decode(), int(octets(f"{front}.status")) if os.path.exists(f"{front}.status") else 0
        if inside("share/doc/eds", "eds", *octets(name).decode().split()) != wanted:
            wrong.append(os.path.relpath(name, doc))
    hold(words and not wrong, f"{where}: these examples print something else: {wrong}")
    hold_tools(at, inside, where)


def hold_tools(at, inside, where):
    """Has each tool do there what it does in the repository. Where a library is lacking that it needs, it has to say so."""
    tools = sorted(it.removeprefix("eds-") for it in os.listdir(f"{at}/bin") if it.startswith("eds-"))
    hold(tools == sorted(ASKED), f"{where}: the tools are {tools}")
    program, called = f"{at}/bin/eds", re.compile(rf"tools/(?=(?:{'|'.join(tools)})\b)")
    lines = octets_of([program, "split", *RECORDING])
    for tool in tools:
        printed, status = inside("share/doc/eds", f"eds-{tool}", *ASKED[tool], input=lines)
        if LACKS.search(printed):
            print(f"package: {where}: eds-{tool} says what it lacks: {printed.strip()}", flush=True)
            continue
        wanted, ends = run([f"tools/{tool}", *ASKED[tool]], settings={"EDS": program}, input=lines)
        hold((called.sub("eds-", wanted), ends) == (printed, status), f"{where}: eds-{tool} ends with {status}: {printed[:2000]} in place of {wanted[:2000]}")


def octets_of(words):
    return subprocess.run(words, cwd=TOP, stdout=subprocess.PIPE, check=True).stdout


def hold_root(root, dpkg, inside, first, next_one, where):
    """Installs, runs, replaces and removes the Debian package in a root."""
    # dpkg wants commands on its path that a user may not have there
    settings = {"PATH": f"{os.environ['PATH']}:/usr/sbin:/sbin"}
    before = listing(root)
    printed, status = run([*dpkg, "-i", first(root)], settings=settings)
    if not hold(not status, f"{where}: not installed: {printed}"):
        return
    hold_runs(f"{root}/usr", inside, where)
    printed, status = run([*dpkg, "-i", next_one(root)], settings=settings)
    after = [os.path.exists(f"{root}/usr/share/doc/eds/{it}") for it in ("examples/xml", "docs/NEXT.md")]
    hold(not status and after == [False, True], f"{where}: not replaced: {printed} {after}")
    printed, status = run([*dpkg, "--purge", "eds"], settings=settings)
    left = sorted(listing(root) - before)
    hold(not status and not left, f"{where}: not removed: {printed} {left}")
    hold(not before - listing(root), f"{where}: removing took {sorted(before - listing(root))}")


def hold_dpkg(room, first, next_one):
    """The Debian package in a root that holds nothing."""
    root = f"{room}/root"
    os.makedirs(f"{root}/var/lib/dpkg/info")
    os.makedirs(f"{root}/var/lib/dpkg/updates")
    with open(f"{root}/var/lib/dpkg/status", "w", encoding="utf-8"):
        pass
    if os.geteuid() and not shutil.which("fakeroot"):
        return skipped("dpkg --root", "fakeroot")
    dpkg = [*(["fakeroot"] if os.geteuid() else []), "dpkg", f"--root={root}", "--force-depends", "--log=/dev/null"]

    def inside(folder, name, *words, **how):
        # (nothing of the environment but the interpreter's path, which the scripts' first line names)
        return run([f"{root}/usr/bin/{name}", *words], f"{root}/usr/{folder}", **how)

    hold_root(root, dpkg, inside, lambda _: first, lambda _: next_one, "dpkg --root")


def hold_system(first, next_one):
    """The Debian package in a system of its own."""
    if os.geteuid():
        return skipped("a system of its own", "root")
    if not shutil.which("debootstrap"):
        return skipped("a system of its own", "debootstrap")
    if not os.path.exists(f"{CLEAN}/made"):
        shutil.rmtree(CLEAN, ignore_errors=True)
        os.makedirs(CLEAN)
        kept = ["--cache-dir=/var/cache/apt/archives"] if os.path.isdir("/var/cache/apt/archives") else []
        made = run(["debootstrap", "--variant=minbase", "--include=python3", *kept, SUITE, f"{CLEAN}/root", MIRROR])
        if made[1]:
            return skipped("a system of its own", f"what debootstrap loads ({made[0].strip().splitlines()[-1]})")
        with open(f"{CLEAN}/made", "w", encoding="utf-8"):
            pass
    root = f"{CLEAN}/root"

    def lay(package):
        def into(root):
            shutil.copy(package, f"{root}/var/cache/{os.path.basename(package)}")
            return f"/var/cache/{os.path.basename(package)}"

        return into

    def inside(folder, name, *words, **how):
        # with the files of its processes, by whose names /dev/stdin goes, for as long as the command runs
        mounted = ["unshare", "--mount", "sh", "-c", 'mount -t proc proc "$0/proc" && exec chroot "$0" "$@"', root]
        there = ["/usr/bin/env", "-i", "PATH=/usr/bin", "sh", "-c", f'cd /usr/{folder} && exec "$@"', "sh", name]
        return run([*mounted, *there, *words], **how)

    hold_root(root, ["chroot", root, "dpkg"], inside, lay(first), lay(next_one), "a system of its own")
    for it in (first, next_one):
        os.remove(f"{root}/var/cache/{os.path.basename(it)}")


def hold_tar(room, first, next_one):
    """The tar file below a prefix in which something lies already."""
    prefix = f"{room}/prefix"
    os.makedirs(f"{prefix}/bin")
    with open(f"{prefix}/bin/other", "w", encoding="utf-8"):
        pass
    before, unpacked = listing(prefix), []
    for it in (first, next_one):
        must(["tar", "-xzf", it, "-C", room])
        unpacked.append(os.path.join(room, os.path.basename(it).removesuffix(".tar.gz"), "install.sh"))

    def inside(folder, name, *words, **how):
        return run([f"{prefix}/bin/{name}", *words], f"{prefix}/{folder}", **how)

    must(["sh", "-c", 'umask 077 && "$1" "$2"', "sh", unpacked[0], prefix])
    hold(os.stat(f"{prefix}/bin/eds").st_mode & 0o777 == 0o755, "the tar file's program is not for all")
    hold_runs(prefix, inside, "install.sh")
    must([unpacked[1], os.path.relpath(prefix, TOP)])
    after = [os.path.exists(f"{prefix}/share/doc/eds/{it}") for it in ("examples/xml", "docs/NEXT.md")]
    hold(after == [False, True], f"install.sh: not replaced: {after}")
    must([unpacked[1], "--remove", prefix])
    hold(listing(prefix) == before, f"install.sh: left {sorted(listing(prefix) ^ before)}")
    hold(run([unpacked[1]])[1] == 2, "install.sh without words does something")


def hold_release(copy, program, room):
    """A release over a stand-in of the gate, and none where it fails."""
    ended = "rt: ok; handles allowed: none; every proof was done in this run\n3 passed, 0 failed\nexamples: 9 passed, 0 failed\n"
    for gate, wanted in ((f"printf '{ended}'; exit 1", 1), ("echo 3 passed, 1 failed", 1), (f"printf '{ended}'", 0)):
        folder = f"{room}/release{len(os.listdir(room))}"
        printed, status = run(["tools/release", folder], copy.at, {"EDS_UNPROVED": program, "EDS_GATE": gate})
        hold(status == wanted and (wanted == 0) == os.path.exists(f"{folder}/PROVED"), f"release ends with {status}: {printed}")
    hold(run(["sha256sum", "-c", "--strict", "SHA256SUMS"], folder)[1] == 0, "the release's checksums are wrong")
    names = sorted(os.listdir(folder))
    called = re.search("eds_(.*)_amd64.deb", " ".join(names))[1]
    wanted = ["PROVED", "SHA256SUMS", f"eds-{called}-x86_64-linux.tar.gz", f"eds_{called}_amd64.deb", "gate.log"]
    hold(names == wanted and called.endswith("+unproved"), f"the release holds {names}")
    told = octets(f"{folder}/PROVED").decode()
    lines = [f"eds: {called}", f"commit: {must(['git', 'rev-parse', 'HEAD'], copy.at)}", "gate: 3 passed, 0 failed"]
    hold(all(it in told.split("\n") for it in lines), f"the release tells: {told}")
    hold(run(["tools/release", folder], copy.at, {"EDS_UNPROVED": program, "EDS_GATE": "true"})[1] == 1, "a release was made over another")
    with open(f"{copy.at}/README.md", "a", encoding="utf-8") as file:
        file.write("\n")
    refused = run(["tools/release", f"{room}/changed"], copy.at, {"EDS_UNPROVED": program, "EDS_GATE": f"printf '{ended}'"})
    hold(refused[1] == 1 and "README.md" in refused[0], f"a release was made of changed files: {refused[0]}")
    must(["git", "checkout", "-q", "README.md"], copy.at)


def tried(room):
    program = os.path.abspath(os.environ.get("EDS") or os.path.join(TOP, BUILT))
    if not os.environ.get("EDS"):
        printed, status = run(["tools/package", f"{room}/here"], settings={"EDS_UNPROVED": ""})
        if not hold(not status, f"the program of ./eds is not packaged: {printed}"):
            return
    copy = Copy(f"{room}/copy")
    other = Copy(f"{room}/and another", copy.at)
    hold_refusals(copy, program, room)
    made = []
    for at, folder, settings, mask in (
        (copy, "first", {}, 0o022),
        (other, "again", {"TZ": "Asia/Tokyo", "LC_ALL": "C", "HOME": room}, 0o077),
    ):
        at.give(program, 60)
        printed, status = at.package(f"{room}/{folder}", settings, mask)
        if not hold(not status, f"no package: {printed}"):
            return
        made.append(packages(f"{room}/{folder}"))
    hold(len(made[0]) == 2 and "unproved" not in printed, f"the packages are {made[0]}")
    for one, again in zip(*made):
        hold(octets(one) == octets(again), f"{os.path.basename(one)} has other octets when it is made again")
    # the next version has one page less and one more
    must(["git", "rm", "-q", "-r", "examples/xml"], other.at)
    shutil.copy(f"{other.at}/docs/INSTALL.md", f"{other.at}/docs/NEXT.md")
    other.commit("next")
    other.give(program, 60)
    hold(not other.package(f"{room}/next")[1], "the next version is not packaged")
    first, next_one = made[0], packages(f"{room}/next")
    hold_needs(first[0], program)
    hold_texts()
    hold_lint(first[0], room)
    hold_dpkg(room, first[0], next_one[0])
    hold_system(first[0], next_one[0])
    hold_tar(room, first[1], next_one[1])
    hold_release(copy, program, room)
    hold_versions(copy, room)


def main():
    lacking = [it for it in ("git", "dpkg-deb", "dpkg", "gzip", "tar", "sha256sum") if not shutil.which(it)]
    if lacking:
        skipped("all", lacking[0])
        return 0
    with tempfile.TemporaryDirectory(prefix="eds-packages-") as room:
        # (a folder that dpkg may read as another user)
        os.chmod(room, 0o755)
        tried(room)
    print(f"package: {counts[True]} passed, {counts[False]} failed")
    return 1 if counts[False] else 0


if __name__ == "__main__":
    sys.exit(main())
