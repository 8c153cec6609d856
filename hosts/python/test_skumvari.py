"""Checks that a Python program gets from the package what it and the header promise; `hosts/test python` installs it
and runs this."""

import copy
import ctypes
import decimal
import inspect
import pickle
import re
import struct
import tempfile
import unittest
from decimal import Decimal
from pathlib import Path

import skumvari
from skumvari import Step, library, new_words

# The paper's example, its lines parted by semicolons, and its listing.
LINES = (
    "[Begin Header];[ICM Ver] 1.1;[File Name] t.icm;[File Rev] 0.1;[End Header];[Begin ICM Family] D;[Manufacturer] O;[ICM Model List];A;"
    "[Begin ICM Model] A;ICM_model_type MLM;[Tree Path Description];Model_pinmap P;Section Mult=2 S;Fork;Section Mult=1 S;Endfork;"
    "Model_pinmap Q;[End ICM Model];[ICM Pin Map] P;Pin_order Un_ordered;Pin_list;A1;A2;[ICM Pin Map] Q;Pin_order Un_ordered;Pin_list;1;2;"
    "[End ICM Family];[Begin ICM Section] S;[Derivation Method] Lumped;[Inductance Matrix] Full_matrix;[Row] 1;4.50nH 0.8nH;[Row] 2;4.5nH;"
    "[End ICM Section];[End]"
).split(";")
LISTING = """accepted 92
models 1
A MLM 6
steps 6
end 13 P
section 14 S 2
fork 15
section 16 S 1
endfork 17
end 18 Q
maps 2
P 2
Q 2
sections 1
S Lumped 2
values 3
S L 1 1 45e-10
S L 1 2 8e-10
S L 2 2 45e-10
"""
ROOT = Path(__file__).resolve().parents[2]
# The test files, with the program that runs them: its input and what it must print.
VECTORS = ROOT / "crates" / "test_vectors"
GUARD = 0xA5A5A5A5A5A5A5A5


def example(**replaced):
    """The bytes of the example; line14="..." replaces that line."""
    lines = [replaced.get(f"line{number}", line) for number, line in enumerate(LINES, 1)]
    return "".join(line + "\n" for line in lines).encode("latin-1")


class Example(unittest.TestCase):
    def setUp(self):
        self.file = skumvari.reads(example())

    def test_listing(self):
        self.assertEqual(len(LINES), 39)
        self.assertEqual(self.file.listing(), LISTING)
        self.assertEqual(self.file.words_used, 92)

    def test_models(self):
        (model,) = self.file.models
        self.assertEqual((model.name, model.type, model.steps), ("A", "MLM", 6))
        self.assertEqual(
            model.path,
            [
                Step("end", 13, "P"),
                Step("section", 14, "S", 2),
                Step("fork", 15),
                Step("section", 16, "S", 1),
                Step("endfork", 17),
                Step("end", 18, "Q"),
            ],
        )
        self.assertIs(self.file.model("A"), model)

    def test_walk(self):
        walked = list(self.file.walk("A"))
        self.assertEqual([step for step, _ in walked], self.file.model("A").path)
        self.assertEqual([depth for _, depth in walked], [0, 0, 0, 1, 1, 0])

    def test_maps(self):
        self.assertEqual(self.file.maps, [("P", "Un_ordered", 0, 0, ["A1", "A2"]), ("Q", "Un_ordered", 0, 0, ["1", "2"])])

    def test_sections(self):
        (section,) = self.file.sections
        self.assertEqual((section.name, section.method, section.conductors, section.kinds), ("S", "Lumped", 2, "L"))
        across, along = Decimal("8e-10"), Decimal("45e-10")
        self.assertEqual(section.matrix("L"), [[along, across], [across, along]])
        self.assertEqual(section.matrix("C"), [[0, 0], [0, 0]])

    def test_entries(self):
        self.assertEqual(str(self.file.entry("S", "L", 1, 1)), "4.5E-9")
        self.assertEqual(self.file.entry("S", "L", 2, 1), self.file.entry("S", "L", 1, 2))
        self.assertEqual(self.file.entry("S", "R", 1, 1), 0)

    def test_what_is_not_there(self):
        for row, column in (0, 1), (1, 0), (3, 1), (1, 3), (-1, 1), (2**64 + 1, 1), (1, 2**64):
            with self.assertRaisesRegex(skumvari.NoSuchEntry, "no entry L .* in section S: rows and columns are 1 to 2"):
                self.file.entry("S", "L", row, column)
        for kind in "X", "", "RL", "l", 1:
            with self.assertRaisesRegex(skumvari.NoSuchEntry, "no kind .*: the kinds are R, L, G and C"):
                self.file.entry("S", kind, 1, 1)
        with self.assertRaisesRegex(LookupError, "no section named T"):
            self.file.entry("T", "L", 1, 1)
        with self.assertRaisesRegex(LookupError, "no model named B"):
            self.file.walk("B")
        with self.assertRaises(TypeError):
            self.file.entry("S", "L", 1.0, 1)

    def test_exact_whatever_the_context(self):
        with decimal.localcontext() as context:
            context.prec = 1
            file = skumvari.reads(example(line37="123456789012345p"))
            self.assertEqual(str(file.entry("S", "L", 2, 2)), "123.456789012345")

    def test_lengths_sides_and_kinds(self):
        capacitance = "4.5nH;[Capacitance Matrix] Diagonal_matrix;-1p 0;[Resistance Matrix] Diagonal_matrix;1M 1m"
        file = skumvari.reads(
            example(
                line14="Section Len=25m S",
                line16="Section Len=1 S",
                line18="Model_pinmap Q\nSide left",
                line32="[Derivation Method] Distributed",
                line37=capacitance.replace(";", "\n"),
            )
        )
        path = file.model("A").path
        self.assertEqual(path[1], Step("section", 14, "S", Decimal("0.025")))
        self.assertEqual(path[5], Step("end", 18, "Q", side="left"))
        self.assertEqual([step for step, _ in file.walk("A")], path)
        self.assertEqual(file.section("S").kinds, "LCR")
        values = ["S C 1 1 -1e-12", "S C 2 2 0e0", "S R 1 1 1e6", "S R 2 2 1e-3"]
        self.assertEqual(file.listing().splitlines()[-4:], values)
        self.assertIn("\nsection 14 S 25e-3\n", file.listing())
        self.assertIn("\nend 18 Q left\n", file.listing())


class Kept(unittest.TestCase):
    """Text and table stay as the intake left them, since questions do not judge the table again."""

    def setUp(self):
        self.file = skumvari.reads(example())

    def assert_whole(self, file):
        self.assertEqual(file.listing(), LISTING)
        self.assertEqual(file.entry("S", "L", 2, 1), Decimal("8e-10"))
        self.assertEqual(len(list(file.walk("A"))), 6)

    def test_nothing_can_be_set(self):
        for name in "text", "words_used":
            with self.assertRaises(AttributeError):
                setattr(self.file, name, b"")
        text = bytearray(example())
        file = skumvari.reads(text)
        text[:] = bytes(len(text))
        self.assert_whole(file)

    def test_lists_that_are_handed_out_are_not_asked(self):
        self.file.models.insert(0, self.file.models[0]._replace(name="B"))
        self.file.sections.clear()
        with self.assertRaisesRegex(LookupError, "no model named B"):
            self.file.walk("B")
        self.assertEqual(len(list(self.file.walk("A"))), 6)
        self.file._kept.words[0] = 99
        with self.assertRaises(IndexError):
            next(self.file._kept.walk(1))

    def test_copies(self):
        section = self.file.section("S")
        for made in copy.copy, copy.deepcopy, lambda file: pickle.loads(pickle.dumps(file)):
            self.assert_whole(made(self.file))
            self.assertEqual(made(section).entry("L", 1, 1), Decimal("45e-10"))


class Refusals(unittest.TestCase):
    def refused(self, text, message):
        with self.assertRaises(skumvari.Refused) as caught:
            skumvari.reads(text)
        self.assertEqual(str(caught.exception), message)
        return caught.exception

    def test_number_name_and_line(self):
        refused = self.refused(example(line35="1e99 1"), "refused 14 RANGE: number or integer out of bounds, line 35")
        self.assertEqual((refused.number, refused.name, refused.line), (14, "RANGE", 35))
        self.refused(b"", "refused 5 HEADER: no [Begin Header] line")
        self.refused(b"x", "refused 4 UNENDED: last line has no LF, line 1")
        self.refused(b"\n" * 1_048_577, "refused 1 SIZE: text over 1,048,576 bytes")
        self.refused(example(line24="A\xe9"), "refused 2 BYTE: byte other than 0x20 to 0x7E, TAB, LF, or CR right before LF, line 24")
        self.refused(example(line3="\0"), "refused 2 BYTE: byte other than 0x20 to 0x7E, TAB, LF, or CR right before LF, line 3")
        self.refused(example(line16="Section Mult=1 T"), "refused 23 NOSECTION: no such section, line 16")
        ratio = example(line11="ICM_model_type MLM\nSGR 3:1")
        self.refused(ratio, "refused 29 SGR: SGR in a model that is not SLM_general, line 12")

    def test_numbers_are_those_of_the_header(self):
        header = (ROOT / "include" / "skumvari.h").read_text()
        numbers = re.findall(r"^ *SKUMVARI_NUMBER_(\w+) = (\d+)", header, re.MULTILINE)
        self.assertEqual([(name, int(number)) for name, number in numbers], [(name, number) for number, (name, _) in skumvari.NUMBERS.items()])

    def test_pickled(self):
        refused = pickle.loads(pickle.dumps(skumvari.Refused(18, 0)))
        self.assertEqual(str(refused), "refused 18 ROOM: table shorter than the words needed")

    def test_files_by_name(self):
        with tempfile.TemporaryDirectory() as folder:
            path = Path(folder, "t.icm")
            path.write_bytes(example())
            self.assertEqual(skumvari.read(path).listing(), LISTING)
            path.write_bytes(b" " * 2_000_000)
            with self.assertRaisesRegex(skumvari.Refused, "refused 1 SIZE"):
                skumvari.read(str(path))
            with self.assertRaises(FileNotFoundError):
                skumvari.read(Path(folder, "none.icm"))

    def test_only_bytes_are_a_text(self):
        self.assertEqual(skumvari.reads(bytearray(example())).words_used, 92)
        for text in "text", 5, None:
            with self.assertRaises(TypeError):
                skumvari.reads(text)


def bits(number):
    """The bits of a float in hexadecimal, as the test file of doubles has them."""
    return struct.pack(">d", number).hex()


class Doubles(unittest.TestCase):
    def test_values_of_a_file(self):
        file = skumvari.reads(example(line37="-1e23"))
        self.assertEqual(skumvari.double_of(file.entry("S", "L", 1, 1)), 45 / 1e10)
        self.assertIsNone(skumvari.double_of(file.entry("S", "L", 2, 2)))
        self.assertEqual(bits(skumvari.double_of(file.entry("S", "R", 1, 1))), "0" * 16)

    def test_numbers(self):
        drawn = {"1e22": 1e22, "-1e-22": -1 / 1e22, "10e21": 1e22, "100e-24": 1 / 1e22, "9007199254740990": 9007199254740990.0, "-2.50": -2.5}
        for number, wanted in drawn.items():
            self.assertEqual(skumvari.double_of(Decimal(number)), wanted, number)
        self.assertEqual(skumvari.double_of(-300), -300.0)
        self.assertEqual(skumvari.double_of(Decimal("0001." + "0" * 5000)), 1.0)
        self.assertEqual(bits(skumvari.double_of(Decimal("-0e99"))), "0" * 16)
        for number in "1e23", "10e22", "-1e-23", "1234567890.123456", "1e61", "1e999999", "NaN", "sNaN", "Infinity", "-Infinity":
            self.assertIsNone(skumvari.double_of(Decimal(number)), number)
        self.assertIsNone(skumvari.double_of(10**5000 + 1))
        for number in 0.5, "1", None:
            with self.assertRaises(TypeError):
                skumvari.double_of(number)

    def test_pairs(self):
        frequency, number, outside = Decimal("1e9"), Decimal("-45e-10"), Decimal("1e23")
        self.assertEqual(skumvari.pair_of(frequency, number), (1e9, -45 / 1e10))
        for pair in (frequency, outside), (outside, number), (outside, outside):
            self.assertIsNone(skumvari.pair_of(*pair))

    def test_words(self):
        lines = [line.split() for line in (ROOT / "hosts" / "vectors" / "doubles.txt").read_text().splitlines()]
        drawn = 0
        for word, wanted in lines:
            number = skumvari._double(int(word))
            self.assertEqual("outside" if number is None else bits(number), wanted, word)
            if number is not None:
                drawn += 1
                self.assertEqual(number, float(skumvari.value(int(word))), word)
                self.assertEqual(skumvari.double_of(skumvari.value(int(word))), number, word)
        self.assertGreater(drawn, 100)
        self.assertGreater(len(lines) - drawn, 100)


class Typed(unittest.TestCase):
    def test_package(self):
        self.assertTrue(Path(skumvari.__file__).with_name("py.typed").is_file())

    def test_annotations(self):
        """Every function and method of the package tells its types, the private ones too."""
        classes = [item for item in vars(skumvari).values() if inspect.isclass(item) and item.__module__ == "skumvari"]
        items = [item for holder in (skumvari, *classes) for item in vars(holder).values()]
        # of a property, cached or not, the function that tells it
        told = (getattr(item, "func", None) or getattr(item, "fget", None) or item for item in items)
        functions = filter(inspect.isfunction, told)
        own = [function for function in functions if function.__code__.co_filename == skumvari.__file__]
        self.assertGreater(len(own), 40)
        for function in own:
            signature = inspect.signature(function)
            self.assertIsNot(signature.return_annotation, signature.empty, function)
            for name, parameter in signature.parameters.items():
                self.assertTrue(name == "self" or parameter.annotation is not signature.empty, (function, name))


class Slices(unittest.TestCase):
    """The functions of the shared library themselves, with slices that are too short."""

    def setUp(self):
        self.text = example()
        self.table, self.answer, self.values = new_words(92), new_words(13), new_words(6)
        self.assertTrue(self.intake(self.table, 92, 4))
        self.assertEqual(self.answer[:4], [1, 0, 0, 92])
        ctypes.memset(self.answer, 0xA5, ctypes.sizeof(self.answer))
        ctypes.memset(self.values, 0xA5, ctypes.sizeof(self.values))

    def intake(self, table, room, answer_room):
        return library().skumvari_intake(self.text, len(self.text), table, room, self.answer, answer_room)

    def ask(self, name, *rest, table=None):
        return getattr(library(), "skumvari_" + name)(self.text, len(self.text), table or self.table, 92, *rest)

    def test_short_answers(self):
        for room in range(13):
            self.assertFalse(self.ask("walk", 0, 0, 0, self.answer, room))
            self.assertFalse(self.ask("walk_unjudged", 0, 0, 0, self.answer, room))
            if room < 5:
                self.assertFalse(library().skumvari_pair(128, 128, self.answer, room))
            if room < 4:
                for judged in "", "_unjudged":
                    self.assertFalse(self.ask("entry" + judged, 0, 1, 1, 1, self.answer, room))
                    self.assertFalse(self.ask("matrix" + judged, 0, 1, self.values, 4, self.answer, room))
                self.assertFalse(library().skumvari_double(128, self.answer, room))
                other = new_words(93)
                ctypes.memset(other, 0xA5, ctypes.sizeof(other))
                self.assertFalse(self.intake(other, 92, room))
                self.assertEqual(other[:], [0] * 92 + [GUARD])
        self.assertEqual(self.answer[:], [GUARD] * 13)
        self.assertEqual(self.values[:], [GUARD] * 6)

    def test_short_tables(self):
        self.assertTrue(self.intake(self.table, 91, 4))
        self.assertEqual(self.answer[:5], [0, 18, 0, 0, GUARD])
        self.assertEqual(self.table[:91], [0] * 91)

    def test_short_values(self):
        for count in range(4):
            self.assertTrue(self.ask("matrix", 0, 1, self.values, count, self.answer, 4))
            self.assertEqual(self.answer[:5], [0, 0, 0, 2, GUARD])
            self.assertEqual(self.values[:], [GUARD] * 6)
        self.assertTrue(self.ask("matrix", 0, 1, self.values, 5, self.answer, 4))
        self.assertEqual(self.values[:], [11628, 2156, 2156, 11628, GUARD, GUARD])

    def test_listings(self):
        for room in range(len(LISTING) + 3):
            out = ctypes.create_string_buffer(b"~" * room, room)
            length = min(room, len(LISTING))
            self.assertEqual(self.ask("list", 92, out, room), length)
            self.assertEqual(out.raw.decode(), LISTING[:length].ljust(room, "~"))

    def test_bent_tables(self):
        self.assertTrue(self.ask("sound"))
        bent = new_words(92)
        bent[:] = self.table[:]
        bent[91] = 0
        self.assertFalse(self.ask("sound", table=bent))
        self.assertTrue(self.ask("entry", 0, 1, 1, 1, self.answer, 4, table=bent))
        self.assertEqual(self.answer[:5], [0, 30, 0, 0, GUARD])
        self.assertTrue(self.ask("walk", 0, 0, 0, self.answer, 13, table=bent))
        self.assertEqual(self.answer[:], [0, 30] + [0] * 11)


class Vectors(unittest.TestCase):
    def setUp(self):
        self.asked = (VECTORS / "stdin").read_text().splitlines()
        self.printed = (VECTORS / "stdout").read_text()

    def listed(self):
        """Each file that is listed, with its listing: what stands between its name and the next one's."""
        names = [line.removesuffix(".icm list") for line in self.asked if line.endswith(" list")]
        starts = [self.printed.index(f"\n{name}\n") for name in names]
        for name, start, end in zip(names, starts, starts[1:] + [len(self.printed) - 1]):
            yield name, self.printed[start + len(name) + 2 : end + 1]

    def test_listings(self):
        compared = 0
        for name, wanted in self.listed():
            if wanted.startswith("accepted"):
                compared += 1
                with self.subTest(name):
                    self.assertTrue(skumvari.read(VECTORS / "data" / f"{name}.icm").listing() == wanted, name)
        self.assertGreater(compared, 0)

    def test_questions(self):
        """What a file answers without judging is what the questions answer that judge."""
        asked = 0
        for path in sorted((VECTORS / "data").glob("*.icm")):
            try:
                file = skumvari.read(path)
            except skumvari.Refused:
                continue
            if file.words_used < 2000:  # each question that judges goes over the whole table
                asked += 1
                self.assert_judged(file, path.name)
        self.assertGreater(asked, 50)

    def assert_judged(self, file, name):
        table, answer = new_words(file.words_used), new_words(13)
        table[:] = file._kept.words
        lent = file.text, len(file.text), table, len(table)
        for index, section in enumerate(file.sections):
            for number, kind in enumerate("RLGC"):
                values = new_words(section.conductors**2)
                self.assertTrue(library().skumvari_matrix(*lent, index, number, values, len(values), answer, 13))
                wanted = [skumvari.value(word) for word in values]
                self.assertEqual([entry for row in section.matrix(kind) for entry in row], wanted, name)
                self.assertTrue(library().skumvari_entry(*lent, index, number, section.conductors, 1, answer, 13))
                self.assertEqual(section.entry(kind, section.conductors, 1), skumvari.value(answer[3]), name)
        for index, model in enumerate(file.models):
            place, walked = [index, 0, 0], []
            while library().skumvari_walk(*lent, *place, answer, 13) and not answer[3]:
                walked.append((file._step(*answer[4:10]), place[2]))
                place = answer[10:13]
            self.assertEqual(list(file.walk(model.name)), walked, name)
            self.assertEqual([step for step, _ in walked], model.path, name)

    def test_refusals(self):
        names = [line.removesuffix(".icm") for line in self.asked if " " not in line]
        for name, line in zip(names, self.printed.splitlines()):
            told, verdict, *rest = line.split(" ")
            self.assertEqual(told, name)
            if verdict == "refused" and rest[0] != "18":  # the answers are for a smaller table
                with self.subTest(name), self.assertRaises(skumvari.Refused) as caught:
                    skumvari.read(VECTORS / "data" / f"{name}.icm")
                self.assertEqual([str(caught.exception.number), str(caught.exception.line)], rest, name)


if __name__ == "__main__":
    unittest.main()
