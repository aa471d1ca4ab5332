"""Repositories to try the gate's modules on."""

import os
import subprocess
import sys
import tempfile
import unittest
from unittest import mock

sys.dont_write_bytecode = True
CI = os.path.dirname(os.path.dirname(os.path.realpath(__file__)))
sys.path.insert(0, CI)
from protogate_ci import sources  # noqa: E402
from protogate_ci.git import Repository as Git  # noqa: E402
from protogate_ci.running import Stop  # noqa: E402
from protogate_ci.snapshot import Snapshot  # noqa: E402

# Upkeep is what git does by itself after a commit, in the background: it may write into a folder that a test removes.
NO_UPKEEP = ("-c", "gc.auto=0", "-c", "maintenance.auto=false")
WHO = ("-c", "user.name=nobody", "-c", "user.email=nobody@example.org", "-c", "init.defaultBranch=main", "-c", "protocol.file.allow=always", *NO_UPKEEP)


class Repository(unittest.TestCase):
    """A repository that is the current folder, and a room beside it."""

    def setUp(self):
        room = tempfile.TemporaryDirectory()
        self.addCleanup(room.cleanup)
        self.room = os.path.realpath(room.name)
        self.top = f"{self.room}/a repository"
        os.mkdir(self.top)
        kept = {name: it for name, it in os.environ.items() if not name.startswith("GIT_") and name != "PWD"}
        environment = mock.patch.dict(os.environ, {**kept, "GIT_CONFIG_NOSYSTEM": "1", "GIT_CONFIG_GLOBAL": "/dev/null"}, clear=True)
        environment.start()
        self.addCleanup(environment.stop)
        self.addCleanup(os.chdir, os.getcwd())
        os.chdir(self.top)
        self.git("init", "-q")

    def write(self, files, top=None):
        for path, data in files.items():
            path = f"{top or self.top}/{path}"
            os.makedirs(os.path.dirname(path), exist_ok=True)
            with open(path, "wb") as file:
                file.write(data if isinstance(data, bytes) else data.encode())

    def link(self, target, path):
        path = f"{self.top}/{path}"
        os.makedirs(os.path.dirname(path), exist_ok=True)
        os.symlink(target, path)

    def git(self, *words, at=None, **how):
        done = subprocess.run(["git", *WHO, *words], cwd=at or self.top, check=True, stdout=subprocess.PIPE, **how)
        return done.stdout.decode("utf-8", "surrogateescape").strip()

    def commit(self, tag="v1", at=None):
        self.git("init", "-q", at=at)
        self.git("add", "-A", at=at)
        self.git("commit", "-q", "-m", tag, "--allow-empty", at=at)
        self.git("tag", "-f", tag, at=at, stderr=subprocess.DEVNULL)

    def source(self, side):
        """The source of a side: `now`, `staged`, `folder PATH`, or a revision."""
        if side.startswith("folder "):
            return sources.Folder(side[7:], side)
        repository = Git.here()
        if side == "now":
            return sources.WorkTree(repository)
        return sources.Tree(repository, repository.staged(self.room) if side == "staged" else repository.commit_of(side), side, self.room)

    def snapshot(self, side, *folders, includes=()):
        return Snapshot(self.source(side), folders or ("proto",), includes)

    def laid(self, snapshot):
        """What is laid out: the bytes of each source file by its path, also by way of links to files."""
        folder = tempfile.mkdtemp(dir=self.room)
        snapshot.lay(folder, {})
        found = {}
        for path, _, names in os.walk(folder):
            for name in names:
                there = os.path.join(path, name)
                if os.path.isfile(there):
                    with open(there, "rb") as file:
                        found[os.path.relpath(there, folder)] = file.read()
        return found

    def gated(self, side, *folders, skipped=()):
        """The bytes of each file that is gated, by its path."""
        snapshot = self.snapshot(side, *folders)
        laid = self.laid(snapshot)
        return {path: laid[real].decode() for path, real in snapshot.gated(set(skipped)).items()}

    def refused(self, side, *folders, skipped=(), includes=()):
        """The kind of each path that is refused."""
        return {path: kind for path, (kind, _) in self.snapshot(side, *folders, includes=includes).refused(set(skipped)).items()}

    def stops(self, status, call, *words):
        """What is said where a call stops with a status."""
        with self.assertRaises(Stop) as stopped:
            call(*words)
        self.assertEqual(stopped.exception.status, status, stopped.exception)
        return str(stopped.exception)


class Ways(Repository):
    """What is the same on each side: a revision, what is staged, the work tree, and a copy of it outside git."""

    def sides(self):
        """Commits what is there, and returns each side of it."""
        self.commit()
        return ("v1", "staged", "now", f"folder {self.top}")
