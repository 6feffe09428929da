from tool import ToolTest

HEAD = 'OPENQASM 2.0;\ninclude "qelib1.inc";\n'


class ExactAngles(ToolTest):
    def test_what_changes(self):
        """Each angle by itself: as it is written, and as it is then; None if it stays."""
        for was, now in (
            ("0.785398163397448", "pi/4"),
            ("-0.7853981633974483", "-pi/4"),
            ("2.356194490192345", "3*pi/4"),
            ("3.14159265358979", "pi"),
            ("-6.283185307179586", "-2*pi"),
            ("2*0.39269908169872414", "pi/4"),
            ("1.0e-10", "0"),
            ("1e-12", "0"),
            ("50.26548245743669", "16*pi"),
            ("0.78539816", None),
            ("0.3", None),
            ("pi/4", None),
            ("0.25*pi", None),
            ("pi*0.12499999999999", None),
            ("51.05088062083414", None),
        ):
            text = f"{HEAD}qreg q[1];\n  rz({was}) q[0]; // {was}\n"
            status, out, err = self.run_tool("exact-angles", given=text)
            is_left = now is None and was not in ("pi/4", "0.25*pi")
            self.assertEqual((status, out), (int(is_left), text.replace(was, now or was, 1)), was)
            self.assertEqual(err.startswith(f"4:6: {was} is now {now}, "), now is not None, err)

    def test_within(self):
        text = f"{HEAD}qreg q[1];\nrz(0.7853) q[0];\n"
        self.assertEqual(self.run_tool("exact-angles", "--within", "1e-4", given=text)[1], text.replace("0.7853", "pi/4"))
        self.assertEqual(self.run_tool("exact-angles", "--within", "0", given=text)[1], text)

    def test_bodies_and_bytes(self):
        text = f"{HEAD}gate g(a) q {{ rz(1.5707963267948966) q; rx(a) q; }} // é\nqreg q[1];\ng( 0.1 ) q[0];\n"
        status, out, err = self.run_tool("exact-angles", given=text)
        self.assertEqual((status, out), (1, text.replace("1.5707963267948966", "pi/2")))
        self.assertEqual(err.splitlines()[1], "1 angles made exact; 1 others aren't multiples of pi/4: 0.1 (1)")

    def test_angles_of_own_gates_are_left(self):
        """A program's own gate may multiply what it is given, where it is applied and in a body; exporters' gates don't."""
        own = "gate g(t) a { u1(1000000000*t) a; } gate f(s) a { g(0.0000000001) a; rz(s+1e-12) a; }\n"
        text = f"{HEAD}{own}gate p(t) a {{ u1(1e9*t) a; }}\nqreg q[2];\ng(0.0000000001) q[0]; f(1e-12) q[0]; p(1e-11) q[1];\n"
        status, out, err = self.run_tool("exact-angles", given=text)
        self.assertEqual((status, out), (1, text))
        self.assertIn("0 angles made exact; 4 others aren't multiples of pi/4", err)
        text = f"{HEAD}opaque wait(t) a;\ngate w a {{ wait(1e-12) a; }}\nqreg q[2];\nrzz(0.7853981633) q[0],q[1];\n"
        status, out, _ = self.run_tool("exact-angles", given=text)
        self.assertEqual((status, out), (0, text.replace("0.7853981633", "pi/4")))

    def test_faults(self):
        text = f"{HEAD}qreg q[1];\nrz(0.1 q[0];\n"
        self.assertEqual(self.run_tool("exact-angles", given=text), (3, "", "exact-angles: 4:8: 'q' where ) is wanted\n"))
