#!/usr/bin/env python3
"""Tests of what `protogate` at the top starts: the program that was built and proved, unless its sources or the kit have changed since. Then it is
the one that was compiled without proof, unless they have changed since that.

usage: tools/dist/test_launcher.py
"""

import hashlib
import os
import shutil
import subprocess
import sys
import time
import unittest
import unittest.mock

sys.dont_write_bytecode = True
sys.path.append(f"{os.path.dirname(os.path.realpath(__file__))}/../gate")
import stamp  # noqa: E402
from trial_checkout import Checkout, run_tests, write  # noqa: E402


# A kit that has its name in a file beside its script.
NAMED_KIT = """#!/bin/sh
[ $1 != version ] || exec cat "${0%/*}/name"
exit 2
"""


class Program(Checkout):
    """A checkout with programs of its sources, whose times are those of a while ago."""

    def setUp(self):
        super().setUp()
        self.built = f"{self.top}/crates/protogate/out"

    def build(self, folder, words):
        """Puts a program into a folder, and what is beside it."""
        write(f"{folder}/protogate", words, 0o755)
        self.note(folder)

    def note(self, folder):
        """Notes beside a program that it is of what is there now."""
        with open(f"{self.kit}/rt", "rb") as file:
            number, checksum = os.fstat(file.fileno()).st_ino, hashlib.sha256(file.read()).hexdigest()
        write(f"{folder}/protogate.begun", f"stand-in\n{number} {checksum}\n{self.kit}/rt\n{' '.join(stamp.crates_of_program(self.top))}\n")
        write(f"{folder}/protogate.sum", f"{stamp.sum_of(self.top)}  -\n")

    def build_proved(self, words="#!/bin/sh\necho built; exit 7\n"):
        self.build(self.built, words)
        self.age()

    def build_unproved(self, words="#!/bin/sh\necho built; exit 7\n"):
        self.build(f"{self.built}/unproved-1", words)
        write(f"{self.built}/unproved.name", "unproved-1\n")
        self.age()

    def age(self, *folders):
        """Makes all as old as it is in a checkout that was built a while ago."""
        for folder in folders or (self.top, self.kit):
            for at, inside, files in os.walk(folder):
                for it in [at, *(f"{at}/{name}" for name in files)]:
                    os.utime(it, (time.time() - 100, time.time() - 100), follow_symlinks=not os.path.islink(it))
        if not folders:
            self.renew()

    def renew(self, seconds=-50):
        """Makes the programs younger than what they were built of: as if that had been read so many seconds from now."""
        for it in self.stamps():
            self.touch(it, seconds)

    def stamps(self):
        return [it for it in (f"{self.built}/protogate.begun", f"{self.built}/unproved-1/protogate.begun") if os.path.exists(it)]

    def read_now(self):
        """Makes the programs younger than all that is there, to the system too, and no younger than now."""
        time.sleep(0.05)
        for it in self.stamps():
            os.utime(it)

    def touch(self, path, seconds):
        """Gives a file the time of so many seconds from now. Two files that get the time of a moment may get the same: a system's clock has steps."""
        os.utime(path, (time.time() + seconds,) * 2)


class Built(Program):
    """The built program is started, and nothing else, unless what it was built of has changed since. To the system each source is as new as the test, as
    in a checkout that was copied with its times, so the contents decide where no time does."""

    # The lines that a call says on standard error.
    lines_said = 0

    def setUp(self):
        super().setUp()
        self.build_one()
        self.is_built()

    def build_one(self):
        self.out = self.built
        self.build_proved()
        self.env["PROTOGATE_PROVED_ONLY"] = "1"

    def is_built(self, **more):
        self.assertEqual(self.call("--help", **more), (7, b"built\n"), self.lines)
        self.assertEqual(len(self.lines), self.lines_said, self.lines)

    def is_stale(self, **more):
        self.assertEqual(self.call("--help", **more), (127, b""))

    def test_from_anywhere(self):
        os.symlink(f"{self.top}/protogate", f"{self.room}/link")
        for words in ([f"{self.room}/link"], ["sh", f"{self.top}/protogate"], ["../protogate"], ["sh", "../protogate"]):
            how = {"cwd": f"{self.top}/crates", "env": self.env, "stdout": subprocess.PIPE, "stderr": subprocess.PIPE}
            done = subprocess.run(words, check=False, **how)
            self.assertEqual((done.returncode, done.stdout, len(done.stderr.splitlines())), (7, b"built\n", self.lines_said), words)

    def test_what_changes_nothing(self):
        write(f"{self.top}/crates/pg_low/proofs/Lib.antt", "new\n")
        write(f"{self.top}/crates/pg_low/proofs/More.antt", "new\n")
        write(f"{self.top}/crates/pg_low/out/rlib", "new\n")
        write(f"{self.top}/crates/rows_wire/src/main.rt", "new\n")
        write(f"{self.top}/tools/more.py", "new\n")
        self.is_built()

    def test_edits(self):
        for it in ("crates/pg_low/src/lib.rt", "crates/pg_low/src/deep/er/deepest.rt", "crates/pg_low/specs/Lib.antt",
                   "crates/protogate/src/main.rt", "crates/protogate/specs/Lib.antt"):
            with self.subTest(it):
                with open(f"{self.top}/{it}", "a", encoding="utf-8") as file:
                    file.write("more\n")
                self.touch(f"{self.top}/{it}", 20)
                self.is_stale()
                self.age(f"{self.top}/crates")
                self.read_now()
                self.is_built()

    def change(self, change):
        """Makes a change by a shell's line, in the folder of the crates. There $out is where the program is."""
        crates = f"{self.top}/crates"
        subprocess.run(["sh", "-ec", change], cwd=crates, env={**os.environ, "out": os.path.relpath(self.out, crates)}, check=True)

    def changes(self, change):
        """A change is seen."""
        self.change(change)
        self.is_stale()

    def changes_nothing(self, change):
        """A change is none of what the program is made of, by the contents: without their checksum nobody knows."""
        self.change(change)
        self.is_built()
        self.changes("rm $out/protogate.sum")

    def test_a_crate_that_is_added(self):
        self.changes_nothing("mkdir -p mine/src; : >mine/src/main.rt; echo 'mine: pg_low hex # one of ours' >>../crates.txt")

    def test_a_folder_that_is_added(self):
        self.changes_nothing("mkdir mine")

    def test_a_crate_that_is_removed(self):
        self.changes_nothing("rm -r rows_wire")

    def test_lines_in_another_order(self):
        self.changes_nothing("printf '# lines\\n\\nprotogate:  pg_low\\npg_low:\\thex # of the kit\\n' >../crates.txt")

    def test_a_crate_that_the_program_uses_is_added(self):
        self.changes("mkdir -p mine/src; : >mine/src/lib.rt; printf 'mine:\\npg_low: hex mine\\nprotogate: pg_low\\n' >../crates.txt")

    def test_a_crate_in_the_place_of_the_kits_library(self):
        self.changes("mkdir -p hex/src; : >hex/src/lib.rt; echo 'hex:' >>../crates.txt")

    def test_a_crate_in_its_place_by_its_name_alone(self):
        self.changes("mkdir -p hex/src; : >hex/src/lib.rt; echo hex >>../crates.txt")

    def test_a_crate_in_its_place_behind_a_comma(self):
        self.change("printf 'protogate: pg_low\\npg_low: ,hex\\n' >../crates.txt")
        self.is_built()
        self.changes("mkdir -p hex/src; : >hex/src/lib.rt; echo 'hex:' >>../crates.txt")

    def test_a_second_line_of_a_crate(self):
        self.changes("echo 'pg_low: hex' >>../crates.txt")

    def test_a_colon_elsewhere(self):
        self.changes("sed 's/^pg_low:.*/pg_low hex:/' ../crates.txt >lines; mv lines ../crates.txt")

    def test_no_lines(self):
        self.changes("rm ../crates.txt")

    def test_a_crate_that_came_and_went_while_the_program_was_built(self):
        read = stamp.read_now(self.top)
        stamp.write_sum(self.top, read, self.out)
        self.is_built()
        self.change("mkdir hex; rmdir hex")
        stamp.write_sum(self.top, read, self.out)
        self.is_stale()

    def test_a_clock_that_has_steps(self):
        """The sources are read once it has gone on, so what changes after that is younger. Where it stands still, all of that time counts as younger."""
        with unittest.mock.patch.object(stamp, "time_in", side_effect=[7, 7, 7, 9]) as asked:
            self.assertEqual((stamp.now_in(self.out), asked.call_count), (7, 4))
        with unittest.mock.patch.multiple(stamp, time_in=lambda _: 7, STEP=0.01):
            self.assertEqual(stamp.now_in(self.out), 6)

    def test_a_new_file(self):
        self.changes(": >pg_low/specs/More.antt; touch -d @1 pg_low/specs/More.antt")

    def test_a_new_file_deep_down(self):
        self.changes(": >pg_low/src/deep/er/more.rt; touch -d @1 pg_low/src/deep/er/more.rt")

    def test_a_removed_file(self):
        self.changes("rm pg_low/src/deep/er/deepest.rt")

    def test_a_renamed_file(self):
        self.changes("mv pg_low/src/lib.rt pg_low/src/bil.rt")

    def test_a_renamed_folder(self):
        self.changes("mv pg_low/src/deep/er pg_low/src/deep/re")

    def test_a_folder_of_sources_that_is_gone(self):
        self.changes("mv pg_low/specs pg_low/spec")

    def test_a_renamed_crate(self):
        self.changes("mv pg_low pg_high")

    def test_a_linked_file(self):
        self.changes("mv pg_low/src/lib.rt ..; ln -s ../../../lib.rt pg_low/src/lib.rt; touch -h -d @1 pg_low/src/lib.rt pg_low/src; "
                     "touch -d @1 pg_low/src; touch ../lib.rt")

    def test_a_file_that_another_was_copied_over(self):
        """The times of both are older than the program."""
        self.changes("echo other >../other; touch -d @1 ../other; cp -p ../other pg_low/src/lib.rt")

    def test_a_new_file_in_a_folder_with_its_old_time(self):
        self.changes("touch -r pg_low/src ../time; : >pg_low/src/more.rt; touch -d @1 pg_low/src/more.rt; touch -r ../time pg_low/src")

    def test_a_file_that_was_touched(self):
        """Its contents may have been others while the program was built."""
        self.changes("touch pg_low/src/lib.rt")

    def test_no_checksum(self):
        self.changes("rm $out/protogate.sum")

    def test_a_copied_checkout(self):
        os.symlink("../../elsewhere", f"{self.top}/crates/pg_low/src/broken")
        self.age(f"{self.top}/crates/pg_low")
        shutil.move(self.top, f"{self.room}/moved")
        shutil.copytree(f"{self.room}/moved", self.top, symlinks=True)
        for folder in (".", f"{self.top}/crates", self.room):
            self.is_built(at=folder)
            how = {"cwd": folder, "env": self.env, "stdout": subprocess.PIPE, "stderr": subprocess.PIPE}
            done = subprocess.run([os.path.relpath(f"{self.top}/protogate", folder)], check=False, **how)
            self.assertEqual((done.returncode, done.stdout, len(done.stderr.splitlines())), (7, b"built\n", self.lines_said))

    def test_no_program(self):
        self.changes("rm $out/protogate")

    def test_a_program_that_cannot_be_run(self):
        self.changes("chmod -x $out/protogate")

    def test_no_stamp(self):
        self.changes("rm $out/protogate.begun")

    def test_a_clock_that_was_set_back(self):
        """Then each later change is older than the program, so the contents decide, of the kit too."""
        for path in ("crates/pg_low/src/lib.rt", "crates.txt"):
            with self.subTest(path):
                self.renew(3600)
                self.is_built()
                write(f"{self.top}/{path}", "protogate:\n")
                self.is_stale()
                self.note(self.out)
        self.renew(3600)
        self.is_built()
        self.put_kit("# other\n")
        self.is_stale()

    def test_a_crate_of_another_name(self):
        """What the program is made of may be called anything."""
        self.change("mkdir -p low/src low/specs; echo old >low/src/lib.rt; printf 'low:\npg_low: hex\nprotogate: pg_low low\n' >../crates.txt")
        self.note(self.out)
        self.age()
        self.is_built()
        self.changes("echo new >low/src/lib.rt")

    def test_another_kit_with_the_same_script(self):
        """Its name may be all that differs. What else lies in that folder is no matter where the kit says the same."""
        write(f"{self.kit}/rt", NAMED_KIT, 0o755)
        write(f"{self.kit}/name", "stand-in\n")
        self.note(self.out)
        self.age()
        write(f"{self.kit}/more", "\n")
        self.is_built()
        write(f"{self.kit}/name", "another\n")
        os.utime(f"{self.kit}/name", (1, 1))
        self.is_stale()

    def test_a_stamp_of_an_earlier_script(self):
        self.changes("sed -i 4d $out/protogate.begun; touch -d '50 seconds ago' $out/protogate.begun")

    def test_another_kit(self):
        shutil.copytree(self.kit, f"{self.room}/other")
        self.is_stale(PATH=f"{self.room}/other:{self.env['PATH']}")

    def put_kit(self, more):
        """Has another file, which is old, come to where the kit is."""
        with open(f"{self.kit}/rt", encoding="utf-8") as file:
            write(f"{self.kit}/new", file.read() + more, 0o755)
        os.utime(f"{self.kit}/new", (1, 1))
        os.replace(f"{self.kit}/new", f"{self.kit}/rt")

    def test_another_kit_in_its_place(self):
        self.put_kit("")
        self.is_built()
        self.put_kit("# other\n")
        self.is_stale()

    def test_another_kit_in_the_same_file(self):
        with open(f"{self.kit}/rt", "a", encoding="utf-8") as file:
            file.write("# other\n")
        os.utime(f"{self.kit}/rt", (1, 1))
        self.is_stale()

    def test_another_folder_of_a_kit_under_the_same_name(self):
        """To the system its script may be as old as it likes: its number tells."""
        other = f"{self.room}/other"
        shutil.copytree(self.kit, other)
        with open(f"{other}/rt", "a", encoding="utf-8") as file:
            file.write("# other\n")
        self.age(other)
        self.read_now()
        self.is_built()
        os.rename(self.kit, f"{self.room}/gone")
        os.rename(other, self.kit)
        self.is_stale()

    def test_a_kit_that_was_changed(self):
        self.touch(f"{self.kit}/rt", 0)
        self.is_stale()

    def test_a_link_to_the_kit(self):
        os.mkdir(f"{self.room}/bin")
        os.symlink("../kit/rt", f"{self.room}/bin/rt")
        self.is_built(PATH=f"{self.room}/bin:{os.environ['PATH']}")

    def test_no_kit_on_the_path(self):
        os.mkdir(f"{self.room}/bin")
        for it in ("sh", "find"):
            os.symlink(shutil.which(it), f"{self.room}/bin/{it}")
        self.is_stale(PATH=f"{self.room}/bin")
        # Where nothing was changed since, no file is read.
        self.read_now()
        self.is_built(PATH=f"{self.room}/bin")
        self.touch(f"{self.top}/crates.txt", 20)
        self.is_stale(PATH=f"{self.room}/bin")

    def test_a_path_with_other_things_of_that_name(self):
        for it in ("folder", "file"):
            os.mkdir(f"{self.room}/{it}")
        os.mkdir(f"{self.room}/folder/rt")
        write(f"{self.room}/file/rt", "none")
        self.is_built(PATH=f"{self.room}/folder:{self.room}/none:{self.room}/file:{self.env['PATH']}")


class Unproved(Built):
    """So it is with a program that was compiled without proof, where none is proved."""

    lines_said = 1

    def build_one(self):
        write(f"{self.kit}/rt", "#!/bin/sh\n[ $1 != version ] || exec echo stand-in\nexit 2\n", 0o755)
        self.build_unproved()
        self.out = f"{self.built}/unproved-1"

    def is_built(self, **more):
        super().is_built(**more)
        self.assertIn("isn't proved", self.lines[0])
        self.assertIn("tools/build.py", self.lines[0])

    def is_stale(self, **more):
        """Without Python there is no answer, and with it the stand-in has none."""
        status, printed = self.call("--help", **more)
        self.assertEqual((status, printed), (3 if shutil.which("python3", path=more.get("PATH")) else 127, b""))

    def test_that_only_the_proved_program_does(self):
        self.assertEqual(self.call("--help", PROTOGATE_PROVED_ONLY="1"), (127, b""))

    def test_a_link_to_nothing(self):
        self.changes("rm -r $out")

    def test_no_standard_error(self):
        done = subprocess.run(["sh", "-c", f"exec '{self.top}/protogate' --help 2>&-"], env=self.env, stdout=subprocess.PIPE, check=False)
        self.assertEqual((done.returncode, done.stdout), (7, b"built\n"))


class Both(Program):
    """A checkout with a proved program, and one that isn't."""

    SAYS = """#!/bin/sh
ulimit -s; ulimit -H -s; ulimit -S -s; echo "$GLIBC_TUNABLES"; printf '<%s>' "$@"; pwd; exit 5
"""

    def test_that_the_proved_one_wins(self):
        self.build_unproved("#!/bin/sh\nexit 6\n")
        self.build_proved()
        self.assertEqual((self.call("--help"), self.lines), ((7, b"built\n"), []))

    def test_a_proved_one_that_is_stale(self):
        self.build_proved("#!/bin/sh\nexit 6\n")
        write(f"{self.top}/crates/pg_low/src/lib.rt", "other\n")
        self.build_unproved()
        os.utime(f"{self.built}/protogate.begun", (1, 1))
        self.assertEqual((self.call("--help"), len(self.lines)), ((7, b"built\n"), 1))
        self.assertEqual(self.call("--help", PROTOGATE_PROVED_ONLY="1"), (127, b""))

    def test_how_both_are_started(self):
        """With the same stack, environment, words and folder."""
        self.build_proved(self.SAYS)
        proved = self.call("show", "a b", "", "*")
        os.remove(f"{self.built}/protogate")
        self.build_unproved(self.SAYS)
        self.assertEqual(self.call("show", "a b", "", "*"), proved)
        self.assertEqual((proved[0], len(self.lines)), (5, 1))

    def test_a_check_that_fails(self):
        """How a check that fails ends the program isn't for the caller to say: as with a status that is an answer."""
        self.build_unproved('#!/bin/sh\necho "$ASAN_OPTIONS ${LSAN_OPTIONS-none} ${UBSAN_OPTIONS-none}"\n')
        own = {it: "exitcode=0" for it in ("ASAN_OPTIONS", "LSAN_OPTIONS", "UBSAN_OPTIONS")}
        self.assertEqual(self.call("--help", **own), (0, b"abort_on_error=0:exitcode=3 none none\n"))


if __name__ == "__main__":
    sys.exit(run_tests("launcher"))
