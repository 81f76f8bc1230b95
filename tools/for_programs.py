"""What the tests of ./meshsheet, ./scansheet, ./hemsheet, ./meshclean and ./meshround share: the script in a copy, over a stand-in for its program and for the kit, so
that nothing is proved; and what is the same of them, how they read, build and run, and how two of them write a panel file.

A test module makes a class of each base here with its own `NAME`, `PROGRAM` (the stand-in, a shell script) and `GIVEN` (text that the
stand-in takes, and gives back as it is), and its own `KIND` where it reads no panel file.
"""
import os
import platform
import pty
import shutil
import subprocess
import tempfile
import time

ROOT = os.path.dirname(os.path.dirname(os.path.abspath(__file__)))
EXAMPLES = os.path.join(ROOT, "examples")
with open(os.path.join(ROOT, "tools", "refusals.txt"), encoding="utf-8") as words:
    # The numbers that a file can earn.
    REFUSALS = [int(line.split(" ", 1)[0]) for line in words]
# In the place of a program that writes a panel file: it gives back what it is given; what begins with 'refused' goes to standard error, as a
# refusal does.
WRITER = '#!/bin/bash\nread -r -N 7 word\n[ "$word" != refused ] || exec >&2\nprintf %s "$word"\nexec cat\n'
# In the place of the kit: it takes its time, fails where another is at work, and puts the program there.
KIT = """#!/bin/sh
name=$(basename "$PWD")
mkdir ../../target/working || { echo 'rt: two at once'; exit 1; }
sleep 0.3
mkdir -p out
cp "$(dirname "$0")/$name" "out/$name"
rmdir ../../target/working
echo built >>../../target/builds
echo 'rt: ok'
"""


def put(path, text, mode=0o644):
    os.makedirs(os.path.dirname(path), exist_ok=True)
    with open(path, "w") as file:
        file.write(text)
    os.chmod(path, mode)


class Copy:
    """A folder with a space in its name, the script in it, and stand-ins."""

    KIND = "panel file"

    def setUp(self):
        self.top = tempfile.TemporaryDirectory()
        self.addCleanup(self.top.cleanup)
        self.folder = os.path.join(self.top.name, "a folder")
        self.script = os.path.join(self.folder, self.NAME)
        words = ("tools/refusals.txt", "tools/scan_refusals.txt", "tools/hem_refusals.txt")
        for name in (self.NAME, "tools/program.sh", *words, "rust/barleyhinge/Cargo.toml"):
            os.makedirs(os.path.dirname(os.path.join(self.folder, name)), exist_ok=True)
            shutil.copy(os.path.join(ROOT, name), os.path.join(self.folder, name))
        put(os.path.join(self.folder, "crates.txt"), "")
        put(os.path.join(self.folder, "crates", "x"), "")
        os.makedirs(os.path.join(self.folder, "crates", self.NAME))
        # Away from x86-64 the script asks for an emulator: this one runs its last word.
        home = os.path.join(self.top.name, "kit")
        for machine in ("elsewhere", platform.machine()):
            put(os.path.join(home, "on", machine, "toolchain", "bin", "qemu-x86_64"), '#!/bin/bash\nexec "${@: -1}"\n', 0o755)
        self.environment = dict(os.environ, RATTLE_HOME=home, PATH=os.path.join(self.top.name, "bin") + ":/usr/bin:/bin")

    def built(self, program=None):
        put(os.path.join(self.folder, "target", "bin", self.NAME), program or self.PROGRAM, 0o755)
        put(os.path.join(self.folder, "target", f"{self.NAME}.built"), "")

    def kit(self):
        put(os.path.join(self.top.name, "bin", self.NAME), self.PROGRAM, 0o755)
        put(os.path.join(self.top.name, "bin", "rt"), KIT, 0o755)

    def run_it(self, *words, text=None, script=None, **options):
        given = (self.GIVEN if text is None else text).encode()
        done = subprocess.run(
            [script or self.script, *words], input=given, capture_output=True, env=self.environment, timeout=60, **options
        )
        return done.returncode, done.stdout.decode(), done.stderr.decode()

    def shell(self, words):
        done = subprocess.run(["bash", "-c", words, self.script], capture_output=True, env=self.environment, timeout=60)
        return done.returncode, done.stdout.decode(), done.stderr.decode()


class Reads(Copy):
    """What it reads, and what it says where that cannot be; the program is there."""

    def setUp(self):
        super().setUp()
        self.built()

    def test_standard_input_a_name_and_a_dash(self):
        name = os.path.join(self.top.name, "a cover.panel")
        put(name, self.GIVEN)
        self.assertEqual(self.run_it(), (0, self.GIVEN, ""))
        self.assertEqual(self.run_it("-"), (0, self.GIVEN, ""))
        self.assertEqual(self.run_it(name, text=""), (0, self.GIVEN, ""))
        self.assertEqual(self.run_it("a cover.panel", text="", cwd=self.top.name), (0, self.GIVEN, ""))

    def test_through_a_link(self):
        link = os.path.join(self.top.name, "link to it")
        os.symlink(self.script, link)
        self.assertEqual(self.run_it(script=link), (0, self.GIVEN, ""))
        self.assertEqual(self.run_it("--version", script=link)[0], 0)

    def test_a_program_that_dies(self):
        self.built("#!/bin/sh\nkill -SEGV $$\n")
        status, out, told = self.run_it()
        self.assertEqual((status, out), (2, ""))
        self.assertIn(f"{self.NAME}: the program did not end as it should\n", told)

    def test_what_is_no_file(self):
        self.assertEqual(self.shell('"$0" <&-'), (2, "", f"{self.NAME}: standard input is closed\n"))
        self.assertEqual(self.shell('"$0" </'), (2, "", f"{self.NAME}: this is a folder, not a {self.KIND}\n"))
        self.assertEqual(self.run_it("/"), (2, "", f"{self.NAME}: this is a folder, not a {self.KIND}\n"))
        self.assertEqual(self.run_it("none"), (2, "", f"{self.NAME}: there is no file 'none'\n"))
        self.assertNotIn("\x1b", self.run_it("no\x1b[2Jne")[2])

    def test_help_version_and_usage(self):
        status, out, told = self.run_it("--help")
        self.assertEqual((status, out[:6], told), (0, "usage:", ""))
        status, out, told = self.run_it("--version")
        self.assertEqual((status, told), (0, ""))
        self.assertRegex(out, rf"^{self.NAME} [0-9]+\.[0-9]+\.[0-9]+\n$")
        for words in (("--what",), ("a", "b")):
            status, out, told = self.run_it(*words)
            self.assertEqual((status, out, told[:6]), (2, "", "usage:"))


class Writes(Reads):
    """A program that writes a panel file, `WHAT` it is called; of a refused file nothing."""

    def test_bytes_that_are_no_text(self):
        file = bytes(range(1, 256)) + bytes(300) + b"\n\n"
        self.built("#!/bin/sh\nexec cat\n")
        done = subprocess.run([self.script], input=file, capture_output=True, env=self.environment, timeout=60)
        self.assertEqual((done.returncode, done.stdout, done.stderr), (0, file, b""))

    def test_each_refusal_has_one_sentence_and_no_output(self):
        for number in REFUSALS:
            status, out, told = self.run_it(text=f"refused {number}\n")
            self.assertEqual((status, out), (1, ""))
            self.assertRegex(told, rf"^{self.NAME}: the file is refused \({number}\): [a-z][^\n]{{20,}}\n$")
        self.assertIn("is this a panel file?", self.run_it(text="refused 12\n")[2])
        self.assertIn("more than 229,378 bytes", self.run_it(text="refused 1\n")[2])

    def test_a_file_that_is_cut_is_not_handed_out(self):
        self.built("#!/bin/sh\nprintf half\necho unwritten >&2\n")
        self.assertEqual(self.run_it()[:2], (2, ""))

    def test_a_program_that_dies_halfway(self):
        self.built("#!/bin/sh\nprintf half\nkill -SEGV $$\n")
        self.assertEqual(self.run_it()[:2], (2, ""))

    def test_a_file_that_cannot_be_written(self):
        for to in ("/dev/full", "&-"):
            status, _, told = self.shell(f'echo a file | "$0" >{to}')
            self.assertEqual((status, told), (2, f"{self.NAME}: the {self.WHAT} could not be written\n"))

    def test_a_program_that_writes_nothing(self):
        self.assertEqual(self.run_it(text=""), (2, "", f"{self.NAME}: the program wrote no file\n"))

    def test_nothing_is_left_behind(self):
        self.environment["TMPDIR"] = os.path.join(self.top.name, "for a while")
        os.mkdir(self.environment["TMPDIR"])
        for text in (self.GIVEN, "refused 12\n", ""):
            self.run_it(text=text)
        self.assertEqual(os.listdir(self.environment["TMPDIR"]), [])
        os.rmdir(self.environment["TMPDIR"])
        self.assertEqual(self.run_it()[:2], (2, ""))

    def test_a_terminal_gets_no_file(self):
        ours, theirs = pty.openpty()
        done = subprocess.run([self.script], input=b"x", stdout=theirs, stderr=subprocess.PIPE, env=self.environment, timeout=60)
        os.close(theirs)
        os.close(ours)
        self.assertEqual(done.returncode, 2)
        self.assertTrue(done.stderr.startswith(f"{self.NAME}: the {self.WHAT} is no text".encode()), done.stderr)


class Builds(Copy):
    """How the program comes to be there."""

    def test_without_the_kit(self):
        status, out, told = self.run_it()
        self.assertEqual((status, out), (2, ""))
        self.assertIn("no 'rt' on the path", told)
        self.built()
        self.assertEqual(self.run_it(), (0, self.GIVEN, ""))

    def test_on_another_machine(self):
        self.built()
        put(os.path.join(self.top.name, "bin", "uname"), "#!/bin/sh\necho elsewhere\n", 0o755)
        self.assertEqual(self.run_it(), (0, self.GIVEN, ""))
        del self.environment["RATTLE_HOME"]
        status, out, told = self.run_it()
        self.assertEqual((status, out, told.count("\n")), (2, "", 1))
        self.assertIn("no 'rt' on the path", told)

    def test_it_is_built_once_and_again_after_a_change(self):
        self.kit()
        for _ in range(2):
            self.assertEqual(self.run_it()[:2], (0, self.GIVEN))
        self.assertEqual(self.builds(), 1)
        later = time.time() + 5
        os.utime(os.path.join(self.folder, "crates", "x"), (later, later))
        self.assertEqual(self.run_it()[:2], (0, self.GIVEN))
        self.assertEqual(self.builds(), 2)

    def builds(self):
        with open(os.path.join(self.folder, "target", "builds")) as file:
            return len(file.readlines())

    def test_three_at_once(self):
        self.kit()
        runs = [
            subprocess.Popen([self.script], stdin=subprocess.PIPE, stdout=subprocess.PIPE, stderr=subprocess.PIPE, env=self.environment)
            for _ in range(3)
        ]
        given = self.GIVEN
        self.assertEqual([run.communicate(given.encode(), timeout=60)[0].decode() for run in runs], [given] * 3)
        self.assertEqual([run.returncode for run in runs], [0] * 3)
        self.assertEqual(self.builds(), 1)

    def test_a_build_that_fails(self):
        put(os.path.join(self.top.name, "bin", "rt"), "#!/bin/sh\necho 'rt: no'\nexit 1\n", 0o755)
        for _ in range(2):
            status, out, told = self.run_it()
            self.assertEqual((status, out), (2, ""))
            self.assertIn("could not be built", told)


def is_built(name):
    """Whether the program is built in this tree, and of these sources."""
    built, program = (os.path.join(ROOT, "target", part) for part in (f"{name}.built", os.path.join("bin", name)))
    if not os.path.exists(built) or not os.path.exists(program):
        return False
    newer = ["find", "crates", "crates.txt", "-newer", built, "-print", "-quit"]
    return subprocess.run(newer, cwd=ROOT, capture_output=True).stdout == b""
