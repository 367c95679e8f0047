#!/usr/bin/env python3
"""Tests of tools/fields: python3 tools/test_fields.py"""

import importlib.machinery
import importlib.util
import pathlib
import random
import struct
import subprocess
import sys
import unittest

sys.dont_write_bytecode = True
HERE = pathlib.Path(__file__).resolve().parent
TOOL = HERE / "fields"
EXAMPLES = HERE.parent / "examples"
ORACLE = HERE.parent / "oracle" / "target" / "release"

loader = importlib.machinery.SourceFileLoader("fields", str(TOOL))
fields = importlib.util.module_from_spec(importlib.util.spec_from_loader("fields", loader))
loader.exec_module(fields)

# the worked example of the scope document
WORKED = bytes.fromhex(
    "01 1000 01 0200 00000000 00 0000000000000000"
    "10 0a00 00000000000000000000"
    "11 0800 000000000000f03f"
    "11 0800 000000000000f0bf"
    "12 1000 00000000000000000000000000000000"
)
WORKED_TEXT = b"""# two samples
axes 1 bins 2 least 0 train squares floor 0.0
stream seed 0 number 0
evaluation 1   # first
evaluation -1.0
update bins 0 axes 0e5
"""

ODD_DOUBLES = [
    0, 1, 1 << 63, 0x3FF0000000000000, 0x7FEFFFFFFFFFFFFF, 0x7FF0000000000000, 0xFFF0000000000000,
    0x7FF8000000000000, 0x7FF0000000000001, 0xFFFFFFFFFFFFFFFF, 0x000FFFFFFFFFFFFF, 0x3FB999999999999A,
]


def double(dice):
    bits = dice.choice(ODD_DOUBLES) if dice.random() < 0.3 else dice.getrandbits(64)
    return struct.pack("<Q", bits)


def field(dice):
    tag = dice.choice([1, 2, 3, 4, 0x10, 0x11, 0x12])
    length = 2 * dice.randrange(20) if tag == 2 else fields.LENGTHS[tag]
    payload = dice.randbytes(length)
    if tag == 1:
        payload = dice.randbytes(7) + bytes([dice.choice([0, 1, 2, 255])]) + double(dice)
    elif tag == 3:
        payload = struct.pack("<H", dice.randrange(6)) + double(dice) + bytes([dice.randrange(3)])
    elif tag == 0x11:
        payload = double(dice)
    elif tag == 0x12:
        payload = double(dice) + double(dice)
    whole = fields.field(tag, payload)
    return whole * dice.choice([1, 1, 3]) if tag == 0x11 else whole


def run(*arguments, data=b""):
    return subprocess.run([sys.executable, str(TOOL), *arguments], input=data, capture_output=True)


class RoundTrips(unittest.TestCase):
    def back(self, data):
        for offsets in (False, True):
            text = fields.decode(data, offsets)
            self.assertEqual(fields.encode(text), data, text)
        return text

    def test_fields(self):
        dice = random.Random(1)
        for _ in range(1000):
            data = b"".join(field(dice) for _ in range(dice.randrange(12)))
            self.assertNotIn(b"bytes", self.back(data))

    def test_any_bytes(self):
        dice = random.Random(2)
        for _ in range(1000):
            self.back(dice.randbytes(dice.randrange(80)))

    def test_damaged_fields(self):
        dice = random.Random(3)
        for _ in range(1000):
            data = bytearray(b"".join(field(dice) for _ in range(4)))
            data[dice.randrange(len(data))] ^= 1 << dice.randrange(8)
            self.back(bytes(data[: dice.randrange(len(data) + 1)]))

    def test_every_prefix(self):
        for end in range(len(WORKED) + 1):
            self.back(WORKED[:end])

    def test_long_fields(self):
        self.back(fields.field(2, bytes(65534)))
        self.back(fields.field(2, bytes(65535)))
        self.back(fields.field(3, b"\x03\x00" + bytes(9)) * 500)

    def test_examples(self):
        names = sorted(path.stem for path in EXAMPLES.glob("*.txt"))
        self.assertTrue(names)
        for name in names:
            data = (EXAMPLES / f"{name}.bin").read_bytes()
            self.assertEqual(fields.encode((EXAMPLES / f"{name}.txt").read_bytes()), data, name)
            self.assertNotIn(b"bytes", self.back(data))


class Text(unittest.TestCase):
    def test_worked_example(self):
        self.assertEqual(fields.encode(WORKED_TEXT), WORKED)
        self.assertEqual(fields.encode(b"\xef\xbb\xbf" + WORKED_TEXT.replace(b"\n", b"\r\n")), WORKED)

    def test_every_field(self):
        text = b"""grid 2 ratio 10.0 train averages
    grid 2 ratio 1.0 train squares
        none
        axes 2 bins 32 least 7 train 2 floor 0.25
        evolution 64 32
    none
stream seed 18446744073709551615 number 4095
evaluation 0x8000000000000000 times 3
evaluation 1e-05
update bins 1.5 axes 0x7ff8000000000000
bytes 20 01 00 ff
bytes 11
"""
        self.assertEqual(fields.decode(fields.encode(text), False), text)

    def test_offsets(self):
        lines = fields.decode(WORKED, True).decode().splitlines()
        self.assertEqual([int(line.split("# at ")[1]) for line in lines], [0, 19, 32, 43, 54])

    def test_both_forms_of_numbers(self):
        self.assertEqual(fields.encode(b"evaluation 0x3ff0000000000000"), fields.encode(b"evaluation +1."))
        self.assertEqual(fields.encode(b"evaluation -0.0"), fields.encode(b"evaluation 0X8000000000000000"))
        self.assertEqual(fields.encode(b"stream seed 0x2a number 1"), fields.encode(b"stream seed 42 number 1"))


class Mistakes(unittest.TestCase):
    def test_each_is_told_with_its_line(self):
        for line in [
            "axis 1", "axes 1", "axes 256 bins 1 least 0 train squares floor 0",
            "axes 1 bins 65536 least 0 train squares floor 0",
            "axes 1 bins 1 least 4294967296 train squares floor 0", "axes 1 bins 1 least 0 train cubes floor 0",
            "axes 1 bins 1 least 0 train squares floor nan", "axes -1 bins 1 least 0 train squares floor 0",
            "evolution 1,2", "evolution 65536", "grid 3", "grid 3 ratio 1e999 train squares", "none 1",
            "stream seed 18446744073709551616 number 0", "stream number 0 seed 0", "stream seed 0 number 65536",
            "evaluation", "evaluation inf", "evaluation 0x1", "evaluation 1_0", "evaluation \u0661",
            "evaluation 1 times 0", "evaluation 1 times", "evaluation 1 times 1000001", "evaluation 1 2",
            "update bins 1", "bytes 1", "bytes 0g",
            "evaluation " + "9" * 400, "stream seed " + "9" * 5000 + " number 0",
        ]:
            with self.subTest(line=line[:60]):
                with self.assertRaisesRegex(fields.Mistake, "^line 3: "):
                    fields.encode(b"# one\nnone\n" + line.encode() + b"\nnone\n")

    def test_any_bytes_as_text(self):
        dice = random.Random(4)
        for _ in range(1000):
            data = dice.randbytes(dice.randrange(60))
            for call in (fields.encode, fields.lines):
                try:
                    call(data)
                except fields.Mistake:
                    pass

    def test_command(self):
        done = run("encode", data=b"none\nnothing\n")
        self.assertEqual((done.returncode, done.stdout), (1, b""))
        self.assertTrue(done.stderr.startswith(b"fields: standard input: line 2: 'nothing' begins no field"))
        self.assertEqual(run("decode", "no such file").returncode, 1)
        self.assertNotIn(b"Traceback", run("decode", str(HERE)).stderr)
        for wrong in [(), ("show",), ("encode", "a", "b"), ("encode", "--offsets"), ("decode", "--offset")]:
            self.assertEqual(run(*wrong).returncode, 2, wrong)
        self.assertEqual(run("encode", data=WORKED_TEXT).stdout, WORKED)
        self.assertEqual(run("decode", "--offsets", data=WORKED).stdout, fields.decode(WORKED, True))


class Lines(unittest.TestCase):
    def test_lines(self):
        given = b"1 2 0000000000000000 3ff0000000000000 7ff8000000000000\nrefused 2 at 19\n"
        shown = fields.lines(given).decode().splitlines()
        self.assertEqual(shown[0], "iterations 1 samples 2 average 0.0 error 1.0 chi-squared NaN")
        self.assertEqual(shown[1], "refused 2 at 19: a size is zero or above its bound")

    def test_every_refusal_has_a_meaning(self):
        for number in range(1, 13):
            self.assertIn(": ", fields.lines(b"refused %d at 0\n" % number).decode())

    def test_other_lines(self):
        upper = b"1 2 3FF0000000000000 0000000000000000 0000000000000000"
        for line in [b"hello", b"refused 13 at 0", b"refused 0 at 0", b"1 2 0 0 0", upper]:
            with self.assertRaisesRegex(fields.Mistake, "^line 1: "):
                fields.lines(line)


AXES = "axes 1 bins 2 least 0 train squares floor 0"
STREAM = "stream seed 0 number 0"
BEGIN = [AXES, STREAM]
NEST = ["grid 1 ratio 1 train squares"]

# inputs and what docs/FORMAT.md says of them: the refusal's number and offset, None for none
JUDGED = [
    ([], (1, 0)),
    (["none", STREAM], (1, 0)),
    (["bytes 01 10"], (1, 0)),
    (["bytes 01 0f00", "bytes " + "01" * 15], (1, 0)),
    (["bytes 05 0000"], (1, 0)),
    ([AXES], (1, 19)),
    ([AXES, "evaluation 1"], (1, 19)),
    ([AXES, "bytes 02 0300 010101"], (1, 19)),
    ([AXES, "bytes 02 0400 0101"], (1, 19)),
    ([AXES, "evolution 3", "evolution 3"], (1, 24)),
    (["evolution 3"], (1, 0)),
    (NEST + ["none", "evolution 3"], (1, 17)),
    (NEST + [STREAM], (1, 14)),
    (BEGIN + [STREAM], (1, 32)),
    (BEGIN + ["bytes 11 0700 01020304050607"], (1, 32)),
    (BEGIN + ["evaluation 1", "bytes 12"], (1, 43)),
    (BEGIN, None),
    ([AXES.replace("axes 1", "axes 8"), STREAM], None),
    ([AXES.replace("axes 1", "axes 9"), STREAM], (2, 0)),
    ([AXES.replace("axes 1", "axes 0"), STREAM], (2, 0)),
    ([AXES.replace("bins 2", "bins 0")], (2, 0)),
    ([AXES.replace("bins 2", "bins 1025")], (2, 0)),
    ([AXES.replace("bins 2", "bins 0").replace("squares", "2")], (2, 0)),
    ([AXES, "evolution"], (2, 19)),
    ([AXES, "evolution" + 17 * " 2"], (2, 19)),
    ([AXES, "evolution 2 0"], (2, 19)),
    ([AXES, "evolution 1025"], (2, 19)),
    ([AXES.replace("squares", "2"), "evolution 0"], (3, 0)),
    (["grid 0 ratio 1 train squares"], (2, 0)),
    (["grid 257 ratio 1 train squares"], (2, 0)),
    (NEST * 4 + ["none", STREAM], None),
    (NEST * 4 + [AXES, STREAM], None),
    (NEST * 5 + ["none", STREAM], (2, 56)),
    (["grid 63 ratio 1 train squares"] + [AXES.replace("bins 2", "bins 1")] * 63 + [STREAM], None),
    (["grid 64 ratio 1 train squares"] + [AXES] * 64 + [STREAM], (2, 14 + 63 * 19)),
    ([AXES.replace("squares", "2")], (3, 0)),
    ([AXES.replace("floor 0", "floor 0x8000000000000000"), STREAM], None),
    ([AXES.replace("floor 0", "floor 1"), STREAM], None),
    ([AXES.replace("floor 0", "floor 1.0000000000000002")], (3, 0)),
    ([AXES.replace("floor 0", "floor 0x7ff8000000000000")], (3, 0)),
    (["grid 1 ratio 0.5 train squares"], (3, 0)),
    (["grid 1 ratio 0x7ff0000000000000 train squares"], (3, 0)),
    (["grid 1 ratio 1 train 2"], (3, 0)),
    ([AXES, "stream seed 0 number 4095"], None),
    ([AXES, "stream seed 0 number 4096"], (3, 19)),
    (BEGIN + ["update bins 10 axes -0.0"], None),
    (BEGIN + ["update bins -1 axes 0"], (3, 32)),
    (BEGIN + ["update bins 11 axes 0"], (3, 32)),
    (BEGIN + ["update bins 0 axes 0x7ff8000000000000"], (3, 32)),
    (BEGIN + ["evaluation 0x7ff0000000000000"], (7, 32)),
    (BEGIN + ["evaluation 0x7ff8000000000000"], (7, 32)),
    (BEGIN + ["evaluation 1e200"], (8, 32)),
    (BEGIN + ["evaluation 1e154 times 2"], (8, 43)),
    (BEGIN + ["evaluation 1e154", "update bins 0 axes 1"], (8, 43)),
    (NEST + ["none", STREAM, "evaluation 0.1 times 3", "update bins 1 axes 0"], (9, 63)),
    (["axes 1 bins 128 least 0 train squares floor 0", STREAM], None),
    (["axes 1 bins 129 least 0 train squares floor 0"], (10, 0)),
    (["axes 2 bins 2 least 0 train squares floor 0", "evolution 65 2", STREAM], (10, 0)),
    (["grid 128 ratio 1 train squares"] + ["none"] * 128 + [STREAM], None),
    (["grid 129 ratio 1 train squares"] + ["none"] * 129 + [STREAM], (10, 0)),
]


def program(name, data, *arguments):
    return subprocess.run([str(ORACLE / name), *arguments], input=data, capture_output=True, check=True).stdout


@unittest.skipUnless((ORACLE / "oracle").exists(), "the oracle is not built")
class Oracle(unittest.TestCase):
    def test_refusals(self):
        for text, refusal in JUDGED:
            with self.subTest(text=text[-2:], refusal=refusal):
                written = program("oracle", fields.encode("\n".join(text).encode())).decode().splitlines()
                refused = [line for line in written if line.startswith("refused")]
                self.assertEqual(refused, ["refused %d at %d" % refusal] if refusal else [])

    def test_generated_inputs(self):
        for index in range(300):
            data = program("generate", b"", "2", str(index))
            self.assertEqual(fields.encode(fields.decode(data, index % 2 == 0)), data)
            fields.lines(program("oracle", data))

    def test_examples_answers(self):
        for name, function in [("small-axes", "product"), ("nested", "kinds"), ("narrow-corner", "corner")]:
            data = (EXAMPLES / f"{name}.bin").read_bytes()
            self.assertEqual(program("evaluate", data, function), data)
            text = (EXAMPLES / f"{name}.txt").read_text().splitlines()
            told = [line.strip("# ") for line in text if line.startswith("#     iterations")]
            self.assertEqual(fields.lines(program("oracle", data)).decode().splitlines(), told)


if __name__ == "__main__":
    unittest.main()
