"""What tools/capture says where it cannot be built, in a folder laid out as tools/install does."""

import os
import shutil
import unittest
from pathlib import Path

from support import ROOT, InFolder, run

BASIC = ("bash", "cat", "dirname", "env", "find", "mkdir", "mktemp", "mv", "readlink", "rm", "sed", "sha256sum", "uname")
BUILDERS = ("g++", "glslangValidator", "pkg-config")


class Build(InFolder):
    def setUp(self):
        super().setUp()
        share = self.folder / "share/yoktvarim"
        (share / "tools").mkdir(parents=True)
        shutil.copy(ROOT / "tools/capture", share / "tools")
        shutil.copytree(ROOT / "capture", share / "capture")
        (self.folder / "lib").mkdir()
        os.symlink(ROOT / "target/staticlib/libyoktvarim.a", self.folder / "lib/libyoktvarim.a")
        os.symlink(ROOT / "include", self.folder / "include")

    def capture(self, commands, **variables):
        """With these commands in PATH and no others."""
        commands_folder = self.folder / "commands"
        shutil.rmtree(commands_folder, ignore_errors=True)
        commands_folder.mkdir()
        for command in commands:
            os.symlink(shutil.which(command), commands_folder / Path(command).name)
        environment = {"PATH": str(commands_folder), "HOME": str(self.folder), "XDG_CACHE_HOME": str(self.folder / "cache"), **variables}
        return run(self.folder / "share/yoktvarim/tools/capture", "-h", env=environment)

    def refused(self, done, words):
        self.assertEqual((done.returncode, done.stdout), (1, ""))
        self.assertRegex(done.stderr, rf"\Acapture: [^\n]*{words}[^\n]*\n\Z")

    def test_what_is_missing_is_named(self):
        for missing, words in (
            ("g++", r"the C\+\+ compiler is missing: .* g\+\+ "),
            ("glslangValidator", "glslang's compiler is missing: .* glslang-tools"),
            ("pkg-config", "pkg-config is missing"),
        ):
            self.refused(self.capture([*BASIC, *(command for command in BUILDERS if command != missing)]), words)
        headers = self.capture([*BASIC, *BUILDERS], PKG_CONFIG_LIBDIR=str(self.folder))
        self.refused(headers, "the Vulkan headers are missing .* libvulkan-dev")
        self.assertFalse((self.folder / "cache").exists())

    def test_a_source_that_does_not_compile(self):
        (self.folder / "share/yoktvarim/capture/shaders/pass.vert").write_text("no shader\n")
        done = run(self.folder / "share/yoktvarim/tools/capture", "-h", env={**os.environ, "XDG_CACHE_HOME": str(self.folder / "cache")})
        self.assertEqual((done.returncode, done.stdout), (1, ""))
        self.assertTrue(done.stderr.endswith("capture: the shaders do not compile\n"), done.stderr)
        self.assertEqual([path for path in (self.folder / "cache").rglob("*") if path.is_file()], [])

    def test_another_machine(self):
        commands = [command for command in BASIC if command != "uname"]
        machine = self.folder / "uname"
        machine.write_text("#!/bin/sh\necho aarch64\n")
        machine.chmod(0o755)
        self.refused(self.capture([*commands, machine]), "the library is for x86_64, and this machine is aarch64")

    def test_an_install_that_is_not_whole(self):
        (self.folder / "lib/libyoktvarim.a").unlink()
        self.refused(self.capture(BASIC), "the install is not whole")


if __name__ == "__main__":
    unittest.main()
