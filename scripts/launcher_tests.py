"""Tests of the launcher kexec and of what stamps a program that was built, for test-scripts: a tree with the scripts, and
stand-ins for the kit and for what builds the program."""
import os
import shutil
import subprocess

TOP = os.path.dirname(os.path.dirname(os.path.realpath(__file__)))
SCRIPTS = ("kexec", "scripts/program-sources", "scripts/stamp-program")
# A stand-in for what proves and builds: the program says the first word that it is given.
BUILD = """#!/bin/sh
echo built
mkdir -p crates/kexec/out
printf '#!/bin/sh\\necho "ran $1"\\n' >crates/kexec/out/kexec && chmod 755 crates/kexec/out/kexec
"""
# The program stands on text and on the kit's alloc; a crate of tests stands on text too.
CRATES = "text: alloc\nword_tests: text\nkexec: text alloc # the program\n"


def is_open(path):
    """Whether every user may enter a folder."""
    return path == "/" or (os.stat(path).st_mode & 0o001 and is_open(os.path.dirname(path)))


class Tree:
    """A tree with the launcher; `call` runs it, and answers what came of it."""

    def __init__(self, tests):
        self.tests, self.top = tests, f"{tests.folder}/tree"
        for folder in ("crates/kexec/src", "crates/text/proofs", "crates/text/must-fail", "crates/word_tests/src", "scripts",
                       "bin", "docs/help"):
            os.makedirs(f"{self.top}/{folder}")
        for name in SCRIPTS:
            shutil.copy(f"{TOP}/{name}", f"{self.top}/{name}")
        self.write("crates.txt", CRATES)
        self.write("crates/kexec/src/main.rt", "fn main() {}\n")
        self.write("crates/text/proofs/a.antt", "\n")
        self.write("docs/help/kexec.txt", "all\n")
        self.write("docs/help/x.txt", "one\n")
        self.script("bin/rt", "#!/bin/sh\n")
        self.script("scripts/build-crates", BUILD)
        os.chmod(tests.folder, 0o755)
        self.env = {**os.environ, "KEXEC_BUILD": "", "PATH": f"{self.top}/bin:{os.environ['PATH']}"}

    def write(self, name, text):
        self.tests.write(f"tree/{name}", text)

    def script(self, name, text):
        self.write(name, text)
        os.chmod(f"{self.top}/{name}", 0o755)

    def run(self, *words, user=None, **more):
        def become():
            os.setgroups([])
            os.setgid(user)
            os.setuid(user)

        how = {"preexec_fn": become} if user else {}
        return subprocess.run(words, cwd=self.top, env={**self.env, **more}, stdin=subprocess.DEVNULL, capture_output=True,
                              text=True, **how)

    def call(self, user=None):
        """The status, what the program printed, whether it was built, and the lines on standard error."""
        ended = self.run(f"{self.top}/kexec", "x", user=user)
        return ended.returncode, ended.stdout, "\nbuilt\n" in ended.stderr, ended.stderr.count("\n")

    def make_later(self, name):
        later = os.stat(f"{self.top}/crates/kexec/out/kexec.sources").st_mtime + 60
        os.utime(f"{self.top}/{name}", (later, later))


BUILT, RAN = (0, "ran x\n", True, 2), (0, "ran x\n", False, 0)


def test_before_a_build(tests, tree):
    """Help needs no build, and what a build lacks is told in one sentence."""
    for words, said in ((["--help"], "all\n"), (["x", "m", "-h"], "one\n"), (["../help/x", "--help"], "all\n")):
        ended = tree.run(f"{tree.top}/kexec", *words)
        tests.same("help needs no build", (ended.returncode, ended.stdout, ended.stderr), (2, said, ""))
    ended = tree.run(f"{tree.top}/kexec", "x", KEXEC_BUILD="no")
    tests.same("where no build is wanted", (ended.returncode, ended.stdout, ended.stderr), (
        70, "", f"kexec: the program is not built for these sources: {tree.top}/kexec, called by itself, proves and builds it\n"))
    os.rename(f"{tree.top}/bin/rt", f"{tree.top}/rt")
    here = ":".join(place for place in os.environ["PATH"].split(":") if not os.path.exists(f"{place}/rt"))
    ended = tree.run(f"{tree.top}/kexec", "x", PATH=here)
    tests.same("without the kit", (ended.returncode, ended.stdout, ended.stderr.count("\n"), "install the Rattle kit" in
                                   ended.stderr), (70, "", 1, True))
    os.rename(f"{tree.top}/rt", f"{tree.top}/bin/rt")
    tree.script("bin/python3", "#!/bin/sh\nexit 1\n")
    ended = tree.run(f"{tree.top}/kexec", "x")
    tests.same("with a Python that is too old", (ended.returncode, ended.stderr.count("\n"), "older than 3.8" in ended.stderr),
               (70, 1, True))
    os.remove(f"{tree.top}/bin/python3")


def test_what_stands(tests, tree):
    """The program is built for other sources of its own crates alone."""
    tests.same("the first call builds", tree.call(), BUILT)
    tests.same("the next one runs", tree.call(), RAN)
    ended = tree.run(f"{tree.top}/kexec", "x", KEXEC_BUILD="no")
    tests.same("also where no build is wanted", (ended.returncode, ended.stdout, ended.stderr), (0, "ran x\n", ""))
    tests.same("nothing is left", sorted(os.listdir(f"{tree.top}/crates/kexec/out")), ["kexec", "kexec.sources"])
    tree.write("crates/word_tests/src/lib.rt", "mod more;\n")
    tree.write("crates/text/must-fail/wrong.edit", "file: a\n")
    tree.write("crates.txt", CRATES.replace("word_tests: text", "more_tests: kexec\nword_tests: text alloc"))
    for name in ("crates.txt", "crates/word_tests/src/lib.rt", "crates/text/must-fail/wrong.edit"):
        tree.make_later(name)
    tests.same("other crates and edits build nothing", tree.call(), RAN)
    for name, text in (("crates/text/proofs/a.antt", "1\n"), ("crates/text/proofs/b.antt", "2\n"),
                       ("crates/kexec/src/main.rt", "fn main() { }\n"), ("crates.txt", CRATES.replace("text: alloc", "text:"))):
        tree.write(name, text)
        tree.make_later(name)
        tests.same(f"the program's sources build it: {name}", (tree.call(), tree.call()), (BUILT, RAN))
    tree.script("crates/kexec/out/kexec", "#!/bin/sh\necho other\n")
    tree.make_later("crates/kexec/out/kexec")
    tests.same("another program in its place is not taken", tree.call(), BUILT)


def test_stamps(tests, tree):
    """A program that another command built is taken, where its sources did not change meanwhile."""
    stamp = f"{tree.top}/scripts/stamp-program"
    tree.script("gate", BUILD.replace("ran", "gate ran"))
    tree.write("crates/kexec/src/main.rt", "fn main() { 1 }\n")
    tree.make_later("crates/kexec/src/main.rt")
    tests.same("the gate ends well", tree.run(stamp, "./gate").returncode, 0)
    tests.same("what the gate built is taken", tree.call(), (0, "gate ran x\n", False, 0))
    tree.script("gate", BUILD + "echo >>crates/text/proofs/a.antt\n")
    tests.same("sources that change meanwhile", "were changed while" in tree.run(stamp, "./gate").stderr, True)
    tests.same("are built again", tree.call(), BUILT)
    tree.script("gate", BUILD + "exit 3\n")
    tree.make_later("crates/kexec/src/main.rt")
    tests.same("a gate that fails", tree.run(stamp, "./gate").returncode, 3)


def test_other_users(tests, tree):
    if os.getuid() or not is_open(tree.top):
        return
    tree.call()
    tree.make_later("crates.txt")
    tests.same("another user runs it where only times changed", tree.call(65534), RAN)
    tree.write("crates.txt", CRATES.replace("kexec: text", "kexec: more text"))
    tree.make_later("crates.txt")
    tests.same("and is told where sources changed", tree.call(65534), (70, "", False, 1))
    tests.same("who may write renews it", tree.call()[:2], (0, "ran x\n"))


def test_launcher(tests):
    """The script kexec builds the program where there is a need, and runs it."""
    tree = Tree(tests)
    for test in (test_before_a_build, test_what_stands, test_stamps, test_other_users):
        test(tests, tree)
