"""tools/mesh_obj and tools/mesh_text."""

import unittest

from support import JOB, STORED, TOOLS, InFolder, run

CORNERS = "v 0 1 0\nv 0 0 0\nv 1 0 0\nv 1 1 0\n"


class Obj(InFolder):
    def test_there_and_back(self):
        for text in (self.ours(), STORED / "lavapipe.txt"):
            for job in ([], ["--job", JOB]):
                obj = self.file("mesh.obj", run(TOOLS / "mesh_obj", *job, text, check=True).stdout)
                back = run(TOOLS / "mesh_text", *job, obj, check=True)
                self.assertEqual(back.stdout, text.read_text())

    def quad_job(self):
        """The job of a plain quad."""
        path = self.folder / "quad.tsj"
        path.write_bytes(b"TSJ\2\0" + bytes([1, 0, 1, 1, 0, 64]) + bytes([0, 0, 128, 63]) * 6)
        return path

    def text(self, obj, *options):
        return run(TOOLS / "mesh_text", *options, self.file("mesh.obj", obj))

    def test_a_file_of_another_program(self):
        obj = "# made elsewhere\nmtllib x.mtl\no Plane\n" + CORNERS + "vn 0 0 1\ns off\nf 1//1 2//1 3//1\nf -4 -2 -1\n"
        text = "TSJ 2\ndrawn 4 6\n0 65536 0\n0 0 0\n65536 0 0\n65536 65536 0\n0 1 2\n0 2 3\n"
        for options in ([], ["--job", self.quad_job()]):
            self.assertEqual(self.text(obj, *options).stdout, text)
        done = run(TOOLS / "check_mesh", self.quad_job(), self.file("quad.txt", text))
        self.assertEqual((done.returncode, done.stdout), (0, "record 0: accepted\n"))

    def test_thirds_become_whole_units(self):
        obj = "v 0 1 0\nv 0 0 1\nv 1 0 0\nv 0.333333343 0.333333343 0.333333343\nf 1 2 4\nf 2 3 4\nf 3 1 4\n"
        text = "TSJ 2\ndrawn 4 9\n0 196608 0\n0 0 196608\n196608 0 0\n65536 65536 65536\n0 1 3\n1 2 3\n2 0 3\n"
        self.assertEqual(self.text(obj).stdout, text)

    def test_a_point_outside_stays_outside(self):
        obj = CORNERS.replace("v 0 0 0", "v -0.5 0 1") + "f 1 2 3\nf 1 3 4\n"
        self.assertIn("\n4294934528 0 65536\n", self.text(obj, "--job", self.quad_job()).stdout)

    def test_equal_points_are_kept_unless_welded(self):
        obj = CORNERS + "v 0 1 0\nf 1 2 3\nf 5 3 4\n"
        self.assertIn("drawn 5 6\n", self.text(obj).stdout)
        self.assertIn("drawn 4 6\n", self.text(obj, "--weld").stdout)

    def refused(self, done, command, fault):
        self.assertEqual((done.returncode, done.stdout), (1, ""))
        self.assertRegex(done.stderr, rf"\A{command}: [^\n]*{fault}[^\n]*\n\Z")

    def test_faults_of_a_file(self):
        for obj, fault in (
            (CORNERS + "f 1 2 3 4\n", "line 5: 3 points' numbers expected"),
            (CORNERS + "f 1 2 0\n", "line 5: 3 points' numbers expected"),
            (CORNERS + "f 1 2 5\n", "line 5: a corner is no point of this object"),
            (CORNERS + "o second\nv 0 0 0\nf 1 2 3\n", "line 7: a corner is no point of this object"),
            ("v 0 1\n", "line 1: three coordinates expected"),
            ("v 0 1 nan\n", "line 1: three coordinates expected"),
            ("o patch_0\no patch_0\n", "line 2: patch 0 is there twice"),
            ("o patch_1\n" + CORNERS, "there is no object patch_0"),
            ("v 1 0 0\nv 0 1 0\n", "patch 0: its points do not show"),
            ("v 0 0 0\nv 0.2 0.2 0.2\n", "patch 0: its points do not show"),
        ):
            self.refused(self.text(obj), "mesh_text", fault)
        self.refused(self.text("o patch_1\n" + CORNERS, "--job", self.quad_job()), "mesh_text", "the job has no record 1")
        self.refused(run(TOOLS / "mesh_text", self.folder / "none.obj"), "mesh_text", "No such file")

    def test_faults_of_a_text(self):
        mixed = self.file("mixed.txt", "TSJ 2\ndrawn 1 1\n5 5 5\n0\n")
        self.refused(run(TOOLS / "mesh_obj", mixed), "mesh_obj", "record 0: its points do not show")
        self.refused(run(TOOLS / "mesh_obj", "--job", JOB, mixed), "mesh_obj", "1 records, and the job has 117")
        self.refused(run(TOOLS / "mesh_obj", JOB), "mesh_obj", "")


if __name__ == "__main__":
    unittest.main()
