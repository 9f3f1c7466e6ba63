#!/usr/bin/env python3
"""Tests the readers of bin/edits: wrong bodies, source files, what the prover says, and the draw.

Prints the faults and at the end 'N passed, M failed'; the status is 1 if one failed.
"""
import importlib.machinery
import importlib.util
import sys
import tempfile
import unittest
from pathlib import Path

sys.dont_write_bytecode = True
BIN = Path(__file__).resolve().parent
loader = importlib.machinery.SourceFileLoader("edits", str(BIN / "edits"))
edits = importlib.util.module_from_spec(importlib.util.spec_from_loader("edits", loader))
sys.modules["edits"] = edits
loader.exec_module(edits)
import copies
import sources

SOURCE = """use std::fmt;
ghost use Rattle.row.specs.Rows.{shown};

/// A row.
pub struct Row { bytes: Vec<u8> }

impl Row {
    /// Its length.
    pub fn len(&self) -> usize
        ensures { result ≡ length (shown self) }
    {
        count(&self.bytes)
    }

    pub(crate) fn clear(&mut self) { self.bytes.clear(); }
}

impl<'a, T: Into<u8>> From<&'a [T]> for Row {
    fn from(items: &'a [T]) -> Row { let f = |x: u8| { x }; made(items, f) }
}

fn count(bytes: &[u8]) -> usize { fn nested(x: usize) -> usize { x } nested(bytes.len()) }

mod inner {
    pub fn twice(x: u8) -> u8 { twice(x) }
}
""".encode()
SAID = """fn row::rows::Row::len: not proved: `search` did not prove `c.ensures`, `c.count.requires`
fn row::rows::count: not proved
fn row::rows::Row::clear: not proved: `search` did not prove `c.view`
fn row::rows::twice: proved
proofs/rows/count/Answers.antt:3:9: error: `goal-1`: expected `a`
  found `b`
proofs/rows/Row/clear/Proof.antt:9:1: error: `c.y` is not in scope
only=1
"""


def read(text, path="src/rows.rt"):
    return edits.read_edits(text, path)


def functions():
    return sources.functions_of("src/rows.rt", SOURCE, sources.tokens_of({"src/rows.rt": SOURCE})["src/rows.rt"])


def function(name):
    return next(it for it in functions() if it.name == name)


class Blocks(unittest.TestCase):
    def test_block(self):
        (edit,) = read("# of rows\n\n[a_row_is_lost]\n# the last one\n- one\n-     two\n-\n+ three\n")
        self.assertEqual((edit.name, edit.fault), ("a_row_is_lost", ""))
        self.assertEqual(edit.pairs, [("src/rows.rt", b"one\n    two\n", b"three")])

    def test_pairs(self):
        first, second = read("[a]\n- x\n+\nfile: src/a/b.rt\n- y\n+ z\n+ [b]\n\n[b]\n- x\n+ y\n- z\n+ w\n")
        self.assertEqual(first.pairs, [("src/rows.rt", b"x", b""), ("src/a/b.rt", b"y", b"z\n[b]")])
        self.assertEqual(second.pairs, [("src/rows.rt", b"x", b"y"), ("src/rows.rt", b"z", b"w")])

    def test_faults(self):
        blocks = "", "- x\n", "+ y\n", "- x\n+ y\n- z\n", "- x\n+ y\nelse\n", "- x\n\n+ y\n", "-x\n+ y\n", "file: x\n"
        for text in (*(f"[a]\n{it}" for it in blocks), "[a b]\n- x\n+ y\n", "old: x\nnew: y\n"):
            self.assertEqual([bool(it.fault) for it in read(text)], [True], text)
        self.assertEqual([bool(it.fault) for it in read("x\n[a]\n- x\n+ y\n")], [True, False])

    def test_folder(self):
        with tempfile.TemporaryDirectory() as room:
            Path(room, "edits/fast").mkdir(parents=True)
            for name in ("fast/rows.edits", "lib.edits"):
                Path(room, "edits", name).write_text("[a]\n- x\n+ y\n")
            Path(room, "edits/b.edit").write_text("file: src/lib.rt\nold: x\nnew: y\n")
            Path(room, "edits/REFUSED").write_text("0\n")
            found = edits.edits_of(Path(room))
        self.assertEqual([it.pairs[0][0] for it in found if it.pairs], ["src/fast/rows.rt", "src/lib.rt"])
        self.assertEqual([bool(it.fault) for it in found if it.name == "a"], [False, True])
        self.assertEqual([bool(it.fault) for it in found if it.name == "b.edit"], [True])


class Sources(unittest.TestCase):
    def test_functions(self):
        found = {it.name: (it.module, it.owner, it.is_private) for it in functions()}
        self.assertEqual(found["len"], (("rows",), ("Row",), False))
        self.assertEqual(found["clear"], (("rows",), ("Row",), True))
        self.assertEqual(found["from"], (("rows",), ("Row", "From", "T"), False))
        self.assertEqual(found["count"], (("rows",), (), True))
        self.assertEqual(found["twice"], (("rows", "inner"), (), False))
        self.assertEqual(len(found), 5)

    def test_names(self):
        self.assertEqual((function("len").path, function("count").path), ("Row::len", "rows::count"))
        self.assertEqual(function("len").place({"Row": ("base",)}), ("base", "Row", "len"))
        self.assertTrue(function("len").is_named(("base", "Row", "len")))
        self.assertTrue(function("from").is_named(("rows", "RowFromT", "from")))
        self.assertTrue(function("count").is_named(("rows", "fn", "count", "1")))
        self.assertFalse(function("count").is_named(("rows", "Row", "count")))

    def test_owner(self):
        self.assertEqual(sources.owner_of("<'a> Source for &'a [Token] "), ("RefSliceToken", "Source"))
        self.assertEqual(sources.owner_of("<T: Into<u8>> fmt::Display for Row<T> where T: Copy "), ("Row", "Display"))

    def test_stated(self):
        stated = sources.stated_text("src/rows.rt", SOURCE, sources.tokens_of({"": SOURCE})[""])
        for text in (b"pub fn len", b"length ( shown self )"):
            self.assertIn(text.replace(b" ", b""), stated.replace(b" ", b""))
        for text in (b"count", b"clear", b"made"):
            self.assertNotIn(text, stated)

    def test_changes(self):
        def changed(old, new):
            (edit,) = read(f"[a]\n- {old}\n+ {new}\n")
            edits.find_functions([edit], {"src/rows.rt": SOURCE})
            return [it.name for _, it in edit.functions] or edit.fault

        self.assertEqual(changed("bytes.len()", "bytes.len() + 1"), ["count"])
        self.assertEqual(changed("pub struct Row", "pub struct Rows"), "")
        self.assertIn("once", changed("bytes", "byte"))
        self.assertIn("once", changed("nothing", "byte"))
        self.assertIn("clause", changed("(shown self)", "(shown it)"))
        self.assertIn("clause", changed("made(items, f)", "made(items, f) ensures {}"))
        self.assertEqual(edits.changed_range(b"abcd", b"bcd", b"bxd"), (2, 3))

    def test_without_body(self):
        self.assertIn(b"-> usize { loop {} }", copies.without_body(function("count"), SOURCE))


class Answers(unittest.TestCase):
    def test_refusals(self):
        answer = copies.Answer("row", SAID)
        self.assertTrue(answer.has_verdict)
        self.assertFalse(answer.is_proved)
        refusals = {("rows", "Row", "len"): "goal c.ensures", ("rows", "count"): "goal goal-1, by its answer"}
        self.assertEqual(answer.refusals(), refusals)

    def test_unread(self):
        answer = copies.Answer("row", "src/rows.rt:4:2: error[E0425]: cannot find `x`\n")
        self.assertFalse(answer.has_verdict)
        self.assertEqual(answer.unread, [("src/rows.rt", "4", "error[E0425]: cannot find `x`")])


class Runs(unittest.TestCase):
    def test_batches(self):
        found = read("".join(f"[{it}]\n- {old}\n+ x\n\n" for it, old in zip("abc", ("count(&", "self.bytes)", "made"))))
        texts = {"src/rows.rt": SOURCE}
        edits.find_functions(found, texts)
        batch, applied = edits.make_batch(found, texts)
        self.assertEqual([it.name for it in batch], ["a", "c"])
        self.assertEqual(applied["src/rows.rt"], SOURCE.replace(b"count(&", b"x").replace(b"made", b"x"))
        found[0].tries = edits.ALONE
        self.assertEqual([it.name for it in edits.make_batch(found, texts)[0]], ["a"])

    def test_draw(self):
        names = [f"crate_{it}" for it in range(45)]
        self.assertEqual(edits.draw(names, "0123"), edits.draw(names[::-1], "0123"))
        self.assertEqual([len(edits.draw(names[:it], "0123")) for it in (1, 19, 20, 39, 40)], [1, 1, 1, 1, 2])
        drawn = {it for commit in range(500) for it in edits.draw(names, f"{commit:040x}")}
        self.assertEqual(drawn, {*names})


if __name__ == "__main__":
    result = unittest.TextTestRunner(verbosity=0, stream=sys.stdout).run(
        unittest.defaultTestLoader.loadTestsFromModule(sys.modules["__main__"])
    )
    failed = len(result.failures) + len(result.errors)
    print(f"{result.testsRun - failed} passed, {failed} failed")
    sys.exit(1 if failed else 0)
