"""The script wyvern and dist/: which program runs, and what is compared. In a small repository with a stand-in for rt."""

import hashlib
import os
import shutil
import subprocess
import tempfile
import time

from support import TOP, ToolTest

RT = """#!/bin/sh
case $1 in
  version) echo 'kit 1' ;;
  run) mkdir -p out && cp src/main.rt out/wy_cli && chmod +x out/wy_cli && echo built >>out/times ;;
esac
"""
BUILT = "crates/wy_cli/out/wy_cli"
# What the scripts call, so that no other rt is found beside it.
COMMANDS = """awk bash cat chmod cp cut dirname env find grep gzip head mkdir mv readlink rm sed sh sha256sum sleep sort tail touch tr
uname xargs""".split()
# All that a call of the script needs once it has looked.
FEW_COMMANDS = ("find",)
NOBODY = 65534


def become_nobody():
    if os.geteuid() == 0:
        os.setgroups([])
        os.setgid(NOBODY)
        os.setuid(NOBODY)


class Dist(ToolTest):
    def setUp(self):
        super().setUp()
        for name in ("wyvern", "VERSION", *(f"tools/{it}" for it in ("sources_sum", "renew_dist", "check_dist"))):
            os.makedirs(os.path.dirname(os.path.join(self.room, name)), exist_ok=True)
            shutil.copy(os.path.join(TOP, name), os.path.join(self.room, name))
        self.write("crates.txt", "low:\nother: low\nwy_cli: low\n")
        self.write("crates/low/src/lib.rt", "one")
        self.write("crates/other/src/lib.rt", "one")
        self.write("crates/wy_cli/src/main.rt", '#!/bin/sh\necho "first $1"\nexit 3\n')
        os.chmod(self.write("bin/rt", RT), 0o755)
        for folder, names in (("plain", COMMANDS), ("few", FEW_COMMANDS)):
            os.mkdir(os.path.join(self.room, folder))
            for name in names:
                os.symlink(shutil.which(name), os.path.join(self.room, folder, name))

    def call(self, name, *words, rt=True, plain="plain", before=None, **env):
        path = f"{self.room}/bin:{self.room}/{plain}" if rt else f"{self.room}/{plain}"
        how = {"capture_output": True, "text": True, "env": {"PATH": path, **env}, "preexec_fn": before}
        return subprocess.run([os.path.join(self.room, name), *words], **how)

    def shut(self):
        """Takes away the right to write anything in the repository."""
        for folder, _, names in os.walk(self.room):
            for path in (folder, *(os.path.join(folder, it) for it in names)):
                if not os.path.islink(path):
                    was = os.stat(path).st_mode
                    os.chmod(path, 0o555 if was & 0o100 else 0o444)
        self.addCleanup(self.open)

    def cache(self):
        """Makes a folder that everybody can write to."""
        folder = tempfile.TemporaryDirectory(prefix="wyvern-cache-")
        self.addCleanup(folder.cleanup)
        os.chmod(folder.name, 0o777)
        return folder.name

    def open(self):
        for folder, _, _ in os.walk(self.room):
            os.chmod(folder, 0o755)

    def change_manifest(self, old, new):
        manifest = self.read("dist/MANIFEST")
        self.assertIn(old, manifest)
        self.edit("dist/MANIFEST", manifest.replace(old, new))

    def edit(self, name, text):
        # (files of one moment are told apart by the clock of the file system)
        time.sleep(0.05)
        return self.write(name, text)

    def builds(self):
        times = os.path.join(self.room, "crates/wy_cli/out/times")
        return len(self.read(times).splitlines()) if os.path.exists(times) else 0

    def renewed(self):
        self.call("wyvern")
        self.assertEqual(self.call("tools/renew_dist").returncode, 0)
        shutil.rmtree(os.path.join(self.room, "crates/wy_cli/out"))

    def test_without_dist_it_is_built_once(self):
        for _ in range(2):
            ran = self.call("wyvern", "a")
            self.assertEqual((ran.returncode, ran.stdout), (3, "first a\n"))
        self.assertEqual(self.builds(), 1)

    def test_without_rt_the_answer_is_plain(self):
        ran = self.call("wyvern", rt=False)
        self.assertEqual((ran.returncode, ran.stdout), (70, ""))
        self.assertIn("the toolchain's command rt", ran.stderr)

    def test_the_program_of_dist_runs_where_the_sources_are_its_own(self):
        self.renewed()
        for _ in range(2):
            ran = self.call("wyvern", "a", rt=False)
            self.assertEqual((ran.returncode, ran.stdout, ran.stderr), (3, "first a\n", ""))
        self.edit("crates/other/src/lib.rt", "two")
        self.assertEqual(self.call("wyvern", rt=False).returncode, 3)

    def test_an_edit_is_noticed_and_taken_back_too(self):
        self.renewed()
        self.assertEqual(self.call("wyvern", rt=False).returncode, 3)
        self.edit("crates/low/src/lib.rt", "two")
        self.assertEqual(self.call("wyvern", rt=False).returncode, 70)
        self.edit("crates/low/src/lib.rt", "one")
        self.assertEqual(self.call("wyvern", rt=False).returncode, 3)
        self.edit("crates/low/proofs/New.antt", "")
        self.assertEqual(self.call("wyvern", rt=False).returncode, 70)

    def test_a_file_that_went_is_noticed(self):
        self.write("crates/low/proofs/Old.antt", "")
        self.renewed()
        self.assertEqual(self.call("wyvern", rt=False).returncode, 3)
        time.sleep(0.05)
        os.remove(os.path.join(self.room, "crates/low/proofs/Old.antt"))
        self.assertEqual(self.call("wyvern", rt=False).returncode, 70)

    def test_what_was_built_stands_though_folders_are_newer(self):
        self.call("wyvern")
        time.sleep(0.05)
        os.mkdir(os.path.join(self.room, "crates/other/out"))
        self.assertEqual((self.call("wyvern").returncode, self.builds()), (3, 1))
        self.edit("crates/low/src/lib.rt", "two")
        self.assertEqual((self.call("wyvern").returncode, self.builds()), (3, 2))

    def test_a_build_may_be_asked_for(self):
        self.renewed()
        self.assertEqual(self.call("wyvern", WYVERN_BUILD="1").returncode, 3)
        self.assertEqual(self.builds(), 1)

    def test_a_program_that_is_not_the_manifests_does_not_run(self):
        self.renewed()
        shutil.copy(os.path.join(self.room, "wyvern"), os.path.join(self.room, "other"))
        subprocess.run(["gzip", "-9n", "other"], cwd=self.room)
        shutil.move(os.path.join(self.room, "other.gz"), os.path.join(self.room, "dist/wyvern.gz"))
        self.assertEqual(self.call("wyvern").returncode, 70)
        self.assertEqual(self.call("tools/check_dist").returncode, 1)

    def test_once_looked_at_nothing_but_the_names_is_read(self):
        self.renewed()
        self.assertEqual(self.call("wyvern", rt=False).returncode, 3)
        ran = self.call("wyvern", "a", rt=False, plain="few")
        self.assertEqual((ran.returncode, ran.stdout, ran.stderr), (3, "first a\n", ""))

    def test_a_find_that_reads_no_list_serves_too(self):
        self.renewed()
        find = '#!/bin/sh\ncase $1 in -files0-from) echo "find: unknown predicate $1"; exit 1 ;; esac\nexec %s "$@"\n'
        os.chmod(self.write("bin/find", find % shutil.which("find")), 0o755)
        for _ in range(2):
            self.assertEqual((self.call("wyvern").returncode, self.builds()), (3, 0))
        self.edit("crates/low/src/lib.rt", "two")
        self.assertEqual((self.call("wyvern").returncode, self.builds()), (3, 1))

    def test_help_version_and_path(self):
        self.assertIn("recheck CERTIFICATE FILE...", self.call("wyvern", "--help", rt=False).stdout)
        self.renewed()
        version = self.read("VERSION").strip()
        self.assertEqual(self.call("wyvern", "--version").stdout, f"wyvern {version}\nproved with kit 1\n")
        path = self.call("wyvern", "--path").stdout
        self.assertEqual(path, f"{self.room}/out/dist/wyvern\n")
        self.assertEqual(self.call(path.strip()[len(self.room) + 1 :], "a").stdout, "first a\n")
        self.assertEqual(self.call("wyvern", "--help", "a").stdout, "first --help\n")
        self.edit("crates/low/src/lib.rt", "two")
        self.assertIn("of other sources", self.call("wyvern", "--version").stdout)
        self.assertEqual(self.call("wyvern", "--path").stdout, f"{self.room}/{BUILT}\n")

    def test_a_clone_that_cannot_be_written(self):
        self.renewed()
        shutil.rmtree(os.path.join(self.room, "out"), ignore_errors=True)
        cache = self.cache()
        self.shut()
        how = {"rt": False, "before": become_nobody}
        for _ in range(2):
            ran = self.call("wyvern", "a", XDG_CACHE_HOME=cache, **how)
            self.assertEqual((ran.returncode, ran.stdout, ran.stderr), (3, "first a\n", ""))
        ran = self.call("wyvern", "a", HOME=cache, **how)
        self.assertEqual((ran.returncode, ran.stdout, ran.stderr), (3, "first a\n", ""))
        ran = self.call("wyvern", "a", HOME="/nonexistent", **how)
        self.assertEqual((ran.returncode, ran.stdout), (70, ""))
        self.assertRegex(ran.stderr, "^wyvern: .* neither .*/out/dist nor /nonexistent/.* can be written")
        self.assertEqual(len(ran.stderr.splitlines()), 1)

    def test_sources_that_changed_in_a_clone_that_cannot_be_written(self):
        self.renewed()
        self.edit("crates/low/src/lib.rt", "two")
        shutil.rmtree(os.path.join(self.room, "out"), ignore_errors=True)
        cache = self.cache()
        self.shut()
        ran = self.call("wyvern", XDG_CACHE_HOME=cache, before=become_nobody)
        self.assertEqual(ran.returncode, 70)
        self.assertIn("cannot be written, so none can be built there", ran.stderr)

    def test_what_another_unpacked_is_used(self):
        self.renewed()
        self.assertEqual(self.call("wyvern", rt=False).returncode, 3)
        self.shut()
        ran = self.call("wyvern", "a", rt=False, before=become_nobody, HOME="/nonexistent")
        self.assertEqual((ran.returncode, ran.stdout, ran.stderr), (3, "first a\n", ""))

    def test_check_dist(self):
        self.assertIn("no program yet", self.call("tools/check_dist").stdout)
        self.renewed()
        self.assertIn("not compared", self.call("tools/check_dist").stdout)
        self.call("wyvern", WYVERN_BUILD="1")
        for words in ((), ("--after-gate",)):
            self.assertIn("byte for byte", self.call("tools/check_dist", *words).stdout)

    def refused_after_gate(self, why, status=0, **how):
        """Checks that check_dist fails after the gate, for this cause, and otherwise ends with this status."""
        ran = self.call("tools/check_dist", "--after-gate", **how)
        self.assertEqual(ran.returncode, 1)
        for wanted in (why, "tools/renew_dist makes dist/ anew"):
            self.assertIn(wanted, ran.stdout)
        self.assertEqual(self.call("tools/check_dist", **how).returncode, status)

    def test_after_the_gate_all_is_compared(self):
        self.refused_after_gate("no program yet")
        self.renewed()
        self.refused_after_gate("no program was built here")
        self.call("wyvern", WYVERN_BUILD="1")
        self.refused_after_gate("not on the path", rt=False)
        self.change_manifest("kit 1", "kit 2")
        self.refused_after_gate("its program is of another kit, kit 2, and this is kit 1")
        self.change_manifest("kit 2", "kit 1")
        self.edit(BUILT, "another program")
        self.refused_after_gate("not the one that these sources give", 1)
        self.edit("crates/low/src/lib.rt", "two")
        self.refused_after_gate("its program is of other sources")

    def test_a_foreign_program_passes_under_no_kit(self):
        self.renewed()
        self.call("wyvern", WYVERN_BUILD="1")
        self.write("other", "#!/bin/sh\necho foreign\n")
        subprocess.run(["gzip", "-9n", "other"], cwd=self.room, check=True)
        shutil.move(os.path.join(self.room, "other.gz"), os.path.join(self.room, "dist/wyvern.gz"))
        packed = subprocess.run(["gzip", "-dc", "dist/wyvern.gz"], cwd=self.room, capture_output=True, check=True).stdout
        was = next(it for it in self.read("dist/MANIFEST").splitlines() if it.startswith("program "))
        self.change_manifest(was, f"program {hashlib.sha256(packed).hexdigest()}")
        self.refused_after_gate("not the one that these sources give", 1)
        self.change_manifest("kit 1", "kit 2")
        self.refused_after_gate("of another kit")

    def test_what_is_older_than_its_sources_is_not_taken_into_dist(self):
        self.call("wyvern")
        self.edit("crates/low/src/lib.rt", "two")
        self.assertEqual(self.call("tools/renew_dist").returncode, 1)
