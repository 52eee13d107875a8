"""`tools/refused`: how it reads sources, edits and the prover's lines, what it keeps, and what it says of a small crate."""

from __future__ import annotations

import contextlib
import json
import os
import re
import shutil
import signal
import subprocess
import sys
import time
from collections.abc import Mapping, Sequence
from concurrent.futures import ThreadPoolExecutor
from pathlib import Path
from typing import NamedTuple

import proved
import pytest

from lib.places import ROOT
from lib.sample import Sample
from edits.cache import Cache, choose_folder, sum_crate, sum_files, sum_kit
from edits.edits import Edit, Pair, apply, list_edits, read_edit, read_edits
from edits.groups import group_edits
from edits.prover import Libraries
from edits.report import Report, find_refusal, find_unread, find_unreadable, is_proved
from edits.slots import Slots
from edits.sources import Crate, list_items, name_module, read_crate
from edits.stubs import find_faulty, stub_others

ROWS = """\
//! Rows.
const MOST: usize = 2;

macro_rules! twice {
    ($x:expr) => {
        $x + $x
    };
}

pub struct Rows<T> {
    all: Vec<T>,
}

impl<T> Rows<T> {
    /// How many there are.
    pub fn len(&self) -> usize
        ensures { result ≡ length self.now }
    {
        self.all.len()
    }

    fn is_full(&self) -> bool {
        self.all.len() == MOST
    }

    fn forget(&self) {}
}

impl<T: Clone> std::clone::Clone for Rows<T> {
    fn clone(&self) -> Rows<T> {
        if self.is_full() {
            twice!(1);
        }
    }
}

pub fn count(rows: &Rows<u32>) -> usize
where
    u32: Copy,
    ensures { result ≤ MOST }
{
    rows.len()
}
"""
USER = """\
use crate::rows::{Rows, count};

pub fn count_both(rows: &Rows<u32>, others: &Rows<u32>) -> usize {
    count(rows) + count(others)
}
"""


def make_crate(texts: Mapping[str, str]) -> Crate:
    """A crate `low` with these texts."""
    homes = {"Rows": "rows"}
    code = [(path, text) for path, text in texts.items() if path.endswith(".rt")]
    return Crate("low", dict(texts), [item for path, text in code for item in list_items(path, text, homes)])


@pytest.fixture
def low() -> Crate:
    return make_crate(
        {"src/lib.rt": "mod rows;\n", "src/rows.rt": ROWS, "src/both.rt": USER, "specs/Lib.antt": "a ≡ b\n"}
    )


def make_edit(crate: Crate, old: str, new: str, file: str = "src/rows.rt", name: str = "one") -> Edit:
    return read_edit(name, f"file: {file}\nold: {old}\nnew: {new}\n", crate)


# ---- sources


def test_a_module_is_named_by_its_file() -> None:
    paths = {"src/lib.rt": "", "src/main.rt": "", "src/a.rt": "a", "src/a/b.rt": "a::b", "src/a/mod.rt": "a"}
    assert {path: name_module(path) for path in paths} == paths


def test_functions_constants_and_macros_have_names_and_lines(low: Crate) -> None:
    assert [(item.kind, item.name, item.first, item.last) for item in low.items if item.file == "src/rows.rt"] == [
        ("const", "rows::MOST", 2, 2),
        ("macro_rules!", "rows::twice", 4, 8),
        ("fn", "rows::Rows::len", 16, 20),
        ("fn", "rows::Rows::is_full", 22, 24),
        ("fn", "rows::Rows::forget", 26, 26),
        ("fn", "rows::RowsClone::clone", 30, 34),
        ("fn", "rows::count", 37, 43),
    ]


@pytest.mark.parametrize(
    ("block", "name"),
    [
        ("impl<B: Book> Sight for B {", "sight::AnySight::see"),
        ("impl<A, B: Book> Sight for B {", "sight::AnySight::see"),
        ("impl<B: Book> Sight for Shown<B> {", "sight::ShownSight::see"),
        ("impl<B: Book> Shown<B> {", "sight::Shown::see"),
        ("impl Sight for B {", "sight::BSight::see"),
    ],
)
def test_a_method_is_named_by_the_type_and_the_trait_of_its_block(block: str, name: str) -> None:
    text = f"{block}\n    fn see(&self) {{}}\n}}\n"
    assert [item.name for item in list_items("src/sight.rt", text, {})] == [name]


def test_a_header_ends_where_the_body_begins(low: Crate) -> None:
    headers = {item.word(): len(item.header()) for item in low.items if item.kind == "fn"}
    assert headers == {"len": 3, "is_full": 1, "forget": 1, "clone": 1, "count": 5, "count_both": 1}


def test_each_function_of_the_crates_ends_at_a_brace() -> None:
    for folder in (ROOT / "crates").iterdir():
        for item in read_crate(folder).items:
            end = item.text.rstrip().splitlines()[-1]
            assert end.strip().endswith(("}", ";")), (folder.name, item.name, end)
            assert item.text.count("{") == item.text.count("}") or re.search("['\"]", item.text), (
                folder.name,
                item.name,
            )


# ---- edits


def test_an_edit_is_read_as_rt_reads_it(low: Crate) -> None:
    text = "# why\nfile: src/rows.rt\nold: MOST: usize = 2;\nnew: MOST: usize = 3;\nold:         self.all.len()\nnew:         0\n"
    fault = "an 'old:' text is in src/rows.rt 2 times, and not once"
    assert read_edit("one", text, low).fault == fault
    edit = read_edit("one", text.replace("self.all.len()\n", "self.all.len() == MOST\n"), low)
    pairs = [("MOST: usize = 2;", "MOST: usize = 3;"), ("        self.all.len() == MOST", "        0")]
    assert (edit.fault, edit.pairs) == ("", tuple(Pair("src/rows.rt", *pair) for pair in pairs))
    assert read_edit("one", "file: src/both.rt\nold: count(rows) + \nnew:", low).pairs[0].new == ""
    made = read_edit("one", "file: src/rows.rt\nold: = 2;\nnew: = 30;\nold: 30\nnew: 40\n", low)
    assert (made.fault, made.is_wide) == ("", True)


@pytest.mark.parametrize(
    "text, fault",
    [
        ("", "it has no 'old:' and 'new:' pair"),
        ("file: src/rows.rt\nnew: b\n", "a 'new:' line stands before any 'file:' or 'old:' line"),
        ("file: crates.txt\nold: a\nnew: b\n", "a 'file:' line names no file below src/, specs/ or proofs/"),
        ("file: src/../src/rows.rt\nold: a\nnew: b\n", "a 'file:' line names no file below src/, specs/ or proofs/"),
        ("file: src/none.rt\nold: a\nnew: b\n", "there is no file src/none.rt"),
        ("file: src/rows.rt\nold: none\nnew: b\n", "an 'old:' text is in src/rows.rt 0 times, and not once"),
        ("file: src/rows.rt\nold: //! Rows.\nnew: //! Rows.\n", "it changes nothing"),
    ],
)
def test_an_edit_that_can_not_be_applied_has_a_fault(low: Crate, text: str, fault: str) -> None:
    assert read_edit("one", text, low).fault == fault


def test_edits_stand_right_in_their_folder(tmp_path: Path, low: Crate) -> None:
    for name in ("must-fail/b.edit", "must-fail/a.edit", "must-fail/a.txt", "must-fail/c/d.edit", "must-fail/e.md"):
        (tmp_path / name).parent.mkdir(parents=True, exist_ok=True)
        (tmp_path / name).write_text("file: src/rows.rt\nold: = 2;\nnew: = 3;\n")
    good, bad = list_edits(tmp_path)
    assert ([it.name for it in good], [it.name for it in bad]) == (["a.edit", "b.edit"], ["a.txt", "d.edit"])
    assert [(edit.name, bool(edit.fault)) for edit in read_edits(tmp_path, low)] == [
        ("a", False), ("b", False), ("a.txt", True), ("c/d.edit", True),
    ]  # fmt: skip


def test_an_edit_changes_the_function_around_it(low: Crate) -> None:
    edit = make_edit(low, "        if self.is_full() {", "        if !self.is_full() {")
    assert (edit.names(), edit.is_alone()) == ({"rows::RowsClone::clone"}, False)
    assert (edit.find_function_at("src/rows.rt", 34), edit.find_function_at("src/rows.rt", 35)) == (
        "rows::RowsClone::clone",
        "",
    )
    assert edit.find_function_at("src/both.rt", 34) == ""
    assert edit.find_function_named("rows::fn::RowsClone::clone::map") == "rows::RowsClone::clone"
    assert edit.find_function_named("rows::RowsClone::clones") == ""


def test_an_edit_of_a_constant_or_a_macro_changes_what_names_it(low: Crate) -> None:
    assert make_edit(low, "= 2;", "= 3;").names() == {"rows::Rows::is_full", "rows::count", "both::count_both"}
    assert make_edit(low, "$x + $x", "$x").names() == {"rows::RowsClone::clone"}


def test_an_edit_of_a_contract_changes_the_callers_too(low: Crate) -> None:
    assert make_edit(low, "result ≤ MOST", "result ≤ 3").names() == {"rows::count", "both::count_both"}
    assert make_edit(low, "    rows.len()", "    0").names() == {"rows::count"}


def test_an_edit_outside_of_functions_is_tried_alone(low: Crate) -> None:
    assert make_edit(low, "    all: Vec<T>,", "    all: Vec<T>, more: u8,").is_alone()
    assert make_edit(low, "a ≡ b", "a ≡ a", file="specs/Lib.antt").is_alone()
    assert make_edit(low, "use crate::rows::{Rows, count};", "use crate::rows::Rows;", file="src/both.rt").is_wide
    more = make_edit(
        low, "use crate::rows::{Rows, count};", "use crate::rows::{Rows, count, other};", file="src/both.rt"
    )
    assert not more.is_wide


def test_an_edit_of_definitions_names_the_law_that_fails(low: Crate) -> None:
    text = "at: rows::count\nfile: specs/Lib.antt\nold: a ≡ b\nnew: a ≡ a\n"
    edit = read_edit("one", text, low)
    assert (edit.fault, edit.names(), edit.is_of_definitions(), edit.is_alone()) == ("", {"rows::count"}, True, True)
    unknown = read_edit("one", text.replace("count", "counts"), low)
    assert unknown.fault == "there is no function rows::counts"
    code = read_edit("one", "at: rows::count\nfile: src/rows.rt\nold:     rows.len()\nnew:     0\n", low)
    assert code.fault == "an 'at:' line is for an edit of definitions, in specs/"


def test_each_edit_of_this_repository_changes_a_function_that_is_known() -> None:
    for folder in (ROOT / "crates").iterdir():
        for edit in read_edits(folder, read_crate(folder)):
            assert (edit.fault, bool(edit.names())) == ("", True), (folder.name, edit.name)
            assert edit.is_alone() == edit.is_of_definitions(), (folder.name, edit.name)


def test_all_pairs_are_applied_or_none() -> None:
    texts = {"a": "one two", "b": "three"}
    assert apply([Pair("a", "one", "1"), Pair("b", "four", "4")], texts)
    assert texts == {"a": "one two", "b": "three"}
    assert apply([Pair("a", "one", "1"), Pair("a", "1 two", "3"), Pair("b", "three", "")], texts) == ""
    assert texts == {"a": "3", "b": ""}


# ---- stubs


def test_functions_that_no_edit_changes_become_stubs(low: Crate) -> None:
    proofs = {"proofs/rows/count/Answers.antt": "a", "proofs/rows/Rows/len/Answers.antt": "b", "proofs/Lib.antt": "c"}
    texts = {**low.texts, **proofs}
    stubs = stub_others(low, {"rows::count"}, texts)
    assert set(stubs) == {"rows::Rows::len", "rows::Rows::is_full", "rows::RowsClone::clone", "both::count_both"}
    made = {f"proofs/{name.replace('::', '/')}/Proof.antt" for name in stubs}
    assert texts.keys() - made == {*low.texts, *proofs} - {"proofs/rows/Rows/len/Answers.antt"}
    hole = texts["proofs/rows/Rows/len/Proof.antt"]
    assert hole.startswith("use Rattle.low.proofs.rows.Rows.len.Statement as stated\n")
    assert hole.endswith("\npub len_spec : {M : Type 1} → stated.statement M\nlen_spec = ?\n")


def test_a_stub_has_the_contract_and_the_lines_of_its_function(low: Crate) -> None:
    texts = dict(low.texts)
    stub_others(low, {"rows::count"}, texts)
    before, after = ROWS.split("\n"), texts["src/rows.rt"].split("\n")
    changed = [(at, line) for at, (line, was) in enumerate(zip(after, before), 1) if line != was]
    assert changed == [(19, "        loop {}"), (23, "        loop {}"), (31, "        loop {}"), (32, ""), (33, "")]
    assert len(after) == len(before)


@pytest.mark.parametrize(
    "function",
    [
        "#[cycle(parity)]\npub fn even(n: u32) -> bool {\n    odd(n)\n}\n",
        "#[test]\nfn tries() {\n    run();\n}\n",
        "pub const fn most() -> u32 {\n    2\n}\n",
        "pub trait Book {\n    fn read(&self) -> u32;\n}\n",
        "impl From<Fault> for Unread {\n    fn from(fault: Fault) -> Unread {\n        Unread\n    }\n}\n",
    ],
)
def test_a_function_without_a_body_or_a_proof_of_its_own_is_no_stub(function: str) -> None:
    crate = make_crate({"src/lib.rt": function})
    assert [item.kind for item in crate.items] == ["fn"]
    assert not stub_others(crate, set(), dict(crate.texts))


def test_a_stub_at_which_an_error_is_has_its_name(low: Crate) -> None:
    stubs = stub_others(low, set(), dict(low.texts)).values()
    assert find_faulty(stubs, {("src/rows.rt", 17), ("src/rows.rt", 1), ("src/lib.rt", 17)}) == {"rows::Rows::len"}
    assert find_faulty(stubs, {("proofs/rows/count/Proof.antt", 0)}) == {"rows::count"}


# ---- groups


def test_edits_of_one_function_or_one_text_share_no_run(low: Crate) -> None:
    full = make_edit(low, "self.all.len() == MOST", "false", name="full")
    most = make_edit(low, "= 2;", "= 3;", name="most")
    clone = make_edit(low, "if self.is_full()", "if true", name="clone")
    comment = make_edit(low, "//! Rows.", "//! All rows.", name="comment")
    again = make_edit(low, "//! Rows.", "//! The rows.", name="again")
    groups = group_edits(low, [full, most, clone, comment, again], {})
    assert [[it.name for it in group] for group in groups] == [["full", "clone", "comment"], ["most", "again"]]


def test_an_edit_of_a_caller_gets_another_run_once_the_call_is_known(low: Crate) -> None:
    edits = [make_edit(low, "    rows.len()", "    0"), make_edit(low, "count(rows) +", "0 +", file="src/both.rt")]
    assert len(group_edits(low, edits, {})) == 1
    calls = {"both::count_both": {"rows::other"}, "rows::other": {"rows::count"}, "rows::count": {"rows::count"}}
    assert len(group_edits(low, edits, calls)) == 2


# ---- reports


def make_report(*lines: str, status: int = 1, last: str = "only=2 proved=0") -> Report:
    return Report(status, [*lines, last])


OPEN = (
    "note: src/rows.rt:42:5: it is not proved that what the function ensures holds (`returns-in-Ok`); `search` gave up"
)
NOT_PROVED = "fn low::rows::count: not proved"


def test_an_edit_is_refused_at_an_open_goal_of_its_function(low: Crate) -> None:
    edit = make_edit(low, "    rows.len()", "    0")
    assert find_refusal(edit, make_report(OPEN, NOT_PROVED)) == "rows::count, src/rows.rt:42, returns-in-Ok"
    assert find_refusal(edit, make_report(OPEN.replace(":42:", ":30:"), NOT_PROVED)) == ""
    assert find_refusal(edit, make_report(OPEN.replace("rows.rt", "both.rt"), NOT_PROVED)) == ""
    assert find_refusal(edit, make_report(OPEN, "fn low::rows::count: proved")) == ""
    assert find_refusal(edit, make_report(NOT_PROVED)) == ""


def test_an_edit_is_refused_at_a_line_of_the_proof_of_its_function(low: Crate) -> None:
    edit = make_edit(low, "    rows.len()", "    0")
    wrong = "./proofs/rows/count/Answers.antt:9:5: error: `returns`: the two types differ"
    place = "rows::count, proofs/rows/count/Answers.antt:9, returns"
    assert find_refusal(edit, make_report(wrong, NOT_PROVED)) == place
    assert find_refusal(edit, make_report(wrong.replace("rows/count", "rows/counts"), NOT_PROVED)) == ""
    assert find_refusal(edit, make_report(wrong.replace("the two types differ", "was not admitted"), NOT_PROVED)) == ""
    gone = wrong.replace("the two types differ", "`goal.returns`: module `a` has no `returns`")
    assert find_refusal(edit, make_report(gone, NOT_PROVED)).startswith(f"{place} (little: ")
    assert find_refusal(edit, make_report(gone, OPEN, NOT_PROVED)) == "rows::count, src/rows.rt:42, returns-in-Ok"


def test_an_edit_of_definitions_is_refused_at_a_lemma(low: Crate) -> None:
    text = "at: rows::count\nfile: specs/Lib.antt\nold: a ≡ b\nnew: a ≡ a\n"
    edit = read_edit("one", text, low)
    wrong = "./proofs/Rows.antt:6:12: error: `is_law`: expected type `a`, but this has type `b`"
    follows = (
        "./proofs/rows/count/Answers.antt:4:5: error: 1 declaration that depends on `is_law`, which was not admitted, "
        "was not checked: returns"
    )
    assert find_refusal(edit, make_report(wrong, follows, NOT_PROVED)) == "rows::count, proofs/Rows.antt:6, is_law"
    assert find_refusal(edit, make_report(follows, NOT_PROVED)) == ""
    assert find_refusal(edit, make_report(wrong, "fn low::rows::count: proved")) == ""
    gone = wrong.replace("expected type `a`, but this has type `b`", "`half` is not in scope")
    assert find_refusal(edit, make_report(gone, NOT_PROVED)) == ""
    assert find_refusal(make_edit(low, "    rows.len()", "    0"), make_report(wrong, NOT_PROVED)) == ""


def test_a_function_that_only_calls_a_refused_one_is_not_refused(low: Crate) -> None:
    edit = make_edit(low, "count(rows) +", "0 +", file="src/both.rt")
    report = make_report(
        OPEN, NOT_PROVED, "fn low::both::count_both: no proof: it calls `low::rows::count`, which is not proved"
    )
    assert find_refusal(edit, report) == ""
    assert not is_proved(edit, report)
    assert report.list_calls("low") == {"both::count_both": {"rows::count"}}


@pytest.mark.parametrize("status", [-9, -15, 0, 2, 3, 101])
def test_a_run_that_ends_otherwise_refuses_nothing(low: Crate, status: int) -> None:
    edit = make_edit(low, "    rows.len()", "    0")
    assert find_refusal(edit, make_report(OPEN, NOT_PROVED, status=status)) == ""
    assert find_unread(edit, make_report("src/rows.rt:1:1: error[no-name]: what", status=status)) == ""


def test_a_run_that_does_not_come_to_its_end_refuses_nothing(low: Crate) -> None:
    edit = make_edit(low, "    rows.len()", "    0")
    assert find_refusal(edit, make_report(OPEN, NOT_PROVED, last="fn low::rows::other: proved")) == ""


def test_a_function_is_proved_if_its_line_says_so(low: Crate) -> None:
    edit = make_edit(low, "= 2;", "= 3;")
    proved = [f"fn low::{name}: proved" for name in edit.names()]
    assert is_proved(edit, make_report(*proved))
    assert not is_proved(edit, make_report(*proved[1:]))
    assert not is_proved(make_edit(low, "//! Rows.", "//! All."), make_report(*proved))


def test_what_can_not_be_read_is_known_by_its_file_and_its_words(low: Crate) -> None:
    edit = make_edit(low, "    rows.len()", "    0")
    for line in (
        "src/rows.rt:42:5: error[unresolved]: no `x`",
        "./src/rows.rt:42:5: error: `count`: `x` is not in scope",
    ):
        assert find_unread(edit, make_report(line, last="")) == line
    for line in ("src/both.rt:3:5: error[unresolved]: no `x`", "src/rows.rt:3:5: error: `count`: the types differ"):
        assert find_unread(edit, make_report(line, last="")) == ""


def test_of_a_group_those_are_unreadable_in_whose_functions_errors_are(low: Crate) -> None:
    group = [
        make_edit(low, "    rows.len()", "    0"),
        make_edit(low, "if self.is_full()", "if self.is_none()", name="other"),
    ]
    for line, names in ((31, ["other"]), (41, ["one"]), (2, ["one", "other"])):
        report = make_report(f"src/rows.rt:{line}:5: error[unknown-name]: no `x`", last="")
        assert [it.name for it in find_unreadable(group, report)] == names
    assert find_unreadable(group, make_report(OPEN, NOT_PROVED)) == []


# ---- what is kept


def test_what_was_refused_is_kept_by_the_edit_and_the_sum(tmp_path: Path, low: Crate) -> None:
    edit = make_edit(low, "    rows.len()", "    0")
    cache = Cache(tmp_path / "new/folder", "a")
    assert cache.find(edit) is None
    cache.keep(edit, "rows::count, ≡")
    assert cache.find(edit) == "rows::count, ≡"
    assert Cache(cache.folder, "b").find(edit) is None
    assert cache.find(make_edit(low, "    rows.len()", "    1")) is None
    assert [path.name for path in cache.folder.iterdir()] == [cache.key(edit)]


def test_an_entry_that_is_damaged_counts_for_nothing(tmp_path: Path, low: Crate) -> None:
    edit, other = make_edit(low, "    rows.len()", "    0"), make_edit(low, "    rows.len()", "    1")
    cache = Cache(tmp_path, "a")
    cache.keep(edit, "why")
    entry = tmp_path / cache.key(edit)
    whole = entry.read_bytes()
    found = json.loads(whole)
    damaged = [whole[:at] for at in range(len(whole))] + [whole + b"x", b"\xff", b"[]", b"1", b"null", b'{"key": 1}']
    changes: list[dict[str, object]] = [{"text": 1}, {"end": ""}, {"key": cache.key(other)}]
    damaged += [json.dumps({**found, **change}).encode() for change in changes]
    for text in damaged:
        entry.write_bytes(text)
        assert cache.find(edit) is None, text
    entry.unlink()
    entry.mkdir()
    assert cache.find(edit) is None
    cache.keep(edit, "why")
    assert cache.find(edit) is None


def test_the_sum_is_of_all_that_is_read(tmp_path: Path, low: Crate) -> None:
    def build(text: str) -> None:
        folder = tmp_path / "crates/base/out/rlib/base.rlib"
        folder.mkdir(parents=True, exist_ok=True)
        (folder / "format").write_text(text)

    def summed(crate: Crate = low, uses: Sequence[str] = ("base", "itoa"), kit: str = "kit") -> str:
        return sum_crate(crate, Libraries(tmp_path, tmp_path, {"low": list(uses), "base": []}), kit)

    build("sum 1")
    first = summed()
    assert summed() == first
    others = [summed(uses=["base"]), summed(kit="other"), summed(low._replace(name="base"))]
    others += [summed(low._replace(texts={**low.texts, path: ""})) for path in low.texts]
    others += [summed(low._replace(texts={**low.texts, "proofs/New.antt": ""}))]
    build("sum 2")
    assert len({first, summed(), *others}) == 2 + len(others)


# ---- the whole tool, over stand-ins of the prover


class Ran(NamedTuple):
    status: int
    out: list[str]
    err: list[str]


class Clone:
    """A small repository with `tools/refused`, and what the tool keeps of it."""

    def __init__(self, top: Path, texts: Mapping[str, str], crates: str) -> None:
        self.top = top
        shutil.copytree(ROOT / "tools/edits", top / "tools/edits", ignore=shutil.ignore_patterns("__pycache__"))
        for name in ("refused", "crates.py", "proved.py"):
            shutil.copy(ROOT / "tools" / name, top / "tools" / name)
        (top / "crates.txt").write_text(crates)
        for path, text in texts.items():
            self.write(path, text)

    def write(self, name: str, text: str) -> None:
        path = self.top / "crates" / name
        path.parent.mkdir(parents=True, exist_ok=True)
        path.write_text(text, encoding="utf-8")

    def write_edit(self, name: str, file: str, old: str, new: str) -> None:
        crate, _, name = name.partition("/")
        self.write(f"{crate}/must-fail/{name}.edit", f"file: {file}\nold: {old}\nnew: {new}\n")

    def start(self, *words: str, kit: Path | None = None) -> subprocess.Popen[str]:
        room = self.top / "room"
        room.mkdir(exist_ok=True)
        start = {**os.environ, "XDG_CACHE_HOME": f"{self.top}/kept", "TMPDIR": str(room)}
        if kit:
            start["PATH"] = f"{kit}/bin:{os.environ['PATH']}"
        call = [sys.executable, str(self.top / "tools/refused"), *words]
        return subprocess.Popen(call, env=start, stdout=subprocess.PIPE, stderr=subprocess.PIPE, text=True)

    def run(self, *words: str, kit: Path | None = None) -> Ran:
        running = self.start(*words, kit=kit)
        out, err = running.communicate()
        assert list((self.top / "room").iterdir()) == []
        return Ran(running.returncode, out.splitlines(), err.splitlines())

    def files(self) -> dict[str, tuple[bytes, float]]:
        """What the crates' files hold, and when they changed."""
        paths = [path for path in (self.top / "crates").rglob("*") if path.is_file()]
        return {str(path): (path.read_bytes(), path.stat().st_ctime) for path in paths}


LOW = {
    "low/src/lib.rt": "pub fn one() -> u32\n    ensures { result ≡ 1 }\n{\n    1\n}\n",
    "low/must-fail/two.edit": "file: src/lib.rt\nold:     1\nnew:     2\n",
}
SEEN = """\
note: src/lib.rt:4:5: it is not proved that what the function ensures holds (`returns`)
fn low::one: not proved
only=1 proved=0
"""


class StandIn(NamedTuple):
    """A toolchain whose prover is a script of the shell; it is run beside a file `calls`, which has a line a run."""

    folder: Path

    def write(self, script: str) -> None:
        for name, text in (("bin/rt", ""), ("bin/rattle", f'#!/bin/sh\necho "$@" >> {self.calls()}\n{script}\n')):
            path = self.folder / name
            path.parent.mkdir(parents=True, exist_ok=True)
            path.write_text(text)
            path.chmod(0o755)
        (self.folder / "KIT-ID").write_text("a stand-in")

    def calls(self) -> Path:
        return self.folder / "calls"

    def runs(self) -> list[str]:
        return self.calls().read_text().splitlines() if self.calls().exists() else []


@pytest.fixture
def stand_in(tmp_path: Path) -> StandIn:
    return StandIn(tmp_path / "kit")


@pytest.fixture
def clone(tmp_path: Path) -> Clone:
    return Clone(tmp_path / "here", LOW, "low:\nhigh: low\n")


def write_ending(text: str, status: int) -> str:
    """A script that prints a text and ends with a status."""
    return f"cat <<'END'\n{text}END\nexit {status}"


def find_verdict(ran: Ran, name: str) -> str:
    """What is said of an edit."""
    [line] = [it for it in ran.out if it.startswith(f"{name}: ")]
    return line[len(name) + 2 :]


def test_an_edit_is_refused_and_then_kept(clone: Clone, stand_in: StandIn) -> None:
    stand_in.write(write_ending(SEEN, 1))
    before = clone.files()
    ran = clone.run("--logs", str(clone.top / "logs"), kit=stand_in.folder)
    assert (ran.status, ran.out[-1]) == (0, "1 passed, 0 failed")
    assert find_verdict(ran, "low/two") == "refused: one, src/lib.rt:4, returns"
    assert ran.out[-2].startswith("processor minutes: ")
    assert len(stand_in.runs()) == 1 and "--only one" in stand_in.runs()[0]
    assert (clone.top / "logs/low-1.txt").read_text().startswith("two: one\nnote: src/lib.rt:4:5: ")
    again = clone.run(kit=stand_in.folder)
    assert (again.status, find_verdict(again, "low/two")) == (0, find_verdict(ran, "low/two"))
    assert len(stand_in.runs()) == 1
    assert clone.run("--anew", kit=stand_in.folder).status == 0
    assert len(stand_in.runs()) == 2
    clone.write("low/specs/Lib.antt", "")
    assert clone.run(kit=stand_in.folder).status == 0
    assert len(stand_in.runs()) == 3
    assert clone.files().items() >= before.items()


UNKNOWN = """\
src/lib.rt:4:5: error[unknown-method]: `u32` has no method `two`
"""


@pytest.fixture
def uncompiled(clone: Clone) -> Clone:
    """A repository with one edit, which the compiler has to refuse."""
    (clone.top / "crates/low/must-fail/two.edit").unlink()
    text = "code: unknown-method\nsays: method `two`\nfile: src/lib.rt\nold:     1\nnew:     1.two()\n"
    clone.write("low/must-not-compile/three.edit", text)
    return clone


def test_an_edit_that_must_not_compile_is_refused_by_its_code_and_then_kept(
    uncompiled: Clone, stand_in: StandIn
) -> None:
    stand_in.write(write_ending(UNKNOWN, 1))
    for runs in (1, 1):
        ran = uncompiled.run(kit=stand_in.folder)
        assert (ran.status, ran.out[-1], len(stand_in.runs())) == (0, "1 passed, 0 failed", runs)
        said = "refused: one, src/lib.rt:4, unknown-method: `u32` has no method `two`"
        assert find_verdict(ran, "low/three") == said
    text = "code: unknown-method\nsays: has no method\nfile: src/lib.rt\nold:     1\nnew:     1.two()\n"
    uncompiled.write("low/must-not-compile/three.edit", text)
    assert (uncompiled.run(kit=stand_in.folder).status, len(stand_in.runs())) == (0, 2)


ANOTHER = 'an error isn\'t [unknown-method] "method `two`" at a function that it changes: src/'


@pytest.mark.parametrize(
    ("said", "status", "why"),
    [
        (UNKNOWN.replace("unknown-method", "private-field"), 1, ANOTHER),
        (UNKNOWN.replace(":4:5", ":40:5"), 1, ANOTHER),
        (UNKNOWN.replace("src/lib", "src/two"), 1, ANOTHER),
        (UNKNOWN.replace("`two`", "`tow`"), 1, ANOTHER),
        (UNKNOWN + UNKNOWN.replace("`two`", "`tow`"), 1, ANOTHER),
        (UNKNOWN + UNKNOWN.replace("unknown-method", "unknown-name"), 1, ANOTHER),
        (UNKNOWN + UNKNOWN.replace(":4:5", ":40:5"), 1, f"{ANOTHER}lib.rt:40:5: "),
        ("fn low::one: proved\nonly=1 proved=1\n", 0, "the compiler reads it: "),
        (SEEN, 1, "the compiler reads it: note: src/lib.rt:4:5: "),
    ],
)
def test_an_edit_that_compiles_or_has_another_error_is_not_refused(
    uncompiled: Clone, stand_in: StandIn, said: str, status: int, why: str
) -> None:
    stand_in.write(write_ending(said, status))
    ran = uncompiled.run(kit=stand_in.folder)
    assert (ran.status, ran.out[-1]) == (1, "0 passed, 1 failed")
    assert find_verdict(ran, "low/three").startswith(f"NOT REFUSED: {why}")


@pytest.mark.parametrize("status", [2, 3, 101])
def test_an_edit_that_must_not_compile_is_not_tried_by_a_run_without_a_verdict(
    uncompiled: Clone, stand_in: StandIn, status: int
) -> None:
    stand_in.write(write_ending(UNKNOWN, status))
    ran = uncompiled.run(kit=stand_in.folder)
    assert (ran.status, ran.out[-1]) == (1, "0 passed, 1 failed")
    assert find_verdict(ran, "low/three").startswith(f"NOT TRIED: its check ended with status {status}: ")


def test_an_edit_that_must_not_compile_shares_no_run(uncompiled: Clone, stand_in: StandIn) -> None:
    uncompiled.write_edit("low/two", "src/lib.rt", "pub fn one() -> u32", "pub fn one() -> u32 ")
    stand_in.write(write_ending(UNKNOWN + SEEN, 1))
    ran = uncompiled.run(kit=stand_in.folder)
    assert (ran.status, ran.out[-1], len(stand_in.runs())) == (0, "2 passed, 0 failed", 2)


@pytest.mark.parametrize(
    ("text", "fault"),
    [
        ("", "it has 0 lines 'code: CODE', and not one"),
        ("code: E0599\n", "it has 0 lines 'code: CODE', and not one"),
        ("code: one\ncode: two\nsays: a\n", "it has 2 lines 'code: CODE', and not one"),
        ("code: one\n", "it has 0 lines 'says: TEXT', and not one"),
        ("code: one\nsays: \n", "it has 0 lines 'says: TEXT', and not one"),
        ("code: one\nsays: a\nsays: b\n", "it has 2 lines 'says: TEXT', and not one"),
    ],
)
def test_an_edit_that_must_not_compile_needs_one_code_and_text(
    clone: Clone, stand_in: StandIn, text: str, fault: str
) -> None:
    stand_in.write(write_ending(UNKNOWN, 1))
    clone.write("low/must-not-compile/three.edit", f"{text}file: src/lib.rt\nold:     1\nnew:     2\n")
    assert find_verdict(clone.run(kit=stand_in.folder), "low/three") == f"BAD EDIT: {fault}"


def test_a_name_is_that_of_one_edit_and_only_one_kind_has_a_code(clone: Clone, stand_in: StandIn) -> None:
    stand_in.write(write_ending(SEEN, 1))
    clone.write("low/must-not-compile/two.edit", "code: one\nsays: a\nfile: src/lib.rt\nold:     1\nnew:     2\n")
    clone.write("low/must-fail/one.edit", "code: one\nfile: src/lib.rt\nold:     1\nnew:     2\n")
    clone.write("low/must-fail/six.edit", "says: a\nfile: src/lib.rt\nold:     1\nnew:     2\n")
    ran = clone.run(kit=stand_in.folder)
    assert find_verdict(ran, "low/one") == "BAD EDIT: a 'code:' line is for an edit of must-not-compile/"
    assert find_verdict(ran, "low/six") == "BAD EDIT: a 'says:' line is for an edit of must-not-compile/"
    assert "low/two: BAD EDIT: another edit has this name" in ran.out


def list_methods(path: str, trait: str) -> set[str]:
    """The functions of a trait, by the text between its first line and the brace that ends it."""
    [body] = re.findall(rf"^pub trait {trait}\b.*?^}}", (ROOT / "crates" / path).read_text(), re.M | re.S)
    return set(re.findall(r"\bfn (\w+)", body))


def list_calls(text: str) -> set[str]:
    return set(re.findall(r"\bsight\.(\w+)\(", text))


def test_what_an_edit_asks_of_a_sight_and_the_compiler_refuses_is_asked_of_a_book_elsewhere() -> None:
    """A method that nothing has would be refused too, and show nothing."""
    crate = ROOT / "crates/cpi_office"
    edits = [edit for edit in read_edits(crate, read_crate(crate)) if edit.code == "unknown-method"]
    calls = {edit.name: {x for at in edit.pairs for x in list_calls(at.new) - list_calls(at.old)} for edit in edits}
    books, sights = list_methods("cpi_store/src/book.rt", "Book"), list_methods("cpi_office/src/sight.rt", "Sight")
    assert len(calls) >= 5 and all(calls.values())
    assert {name: call for name, call in calls.items() if not call <= books - sights} == {}


def test_a_run_that_is_killed_is_tried_once_more(clone: Clone, stand_in: StandIn) -> None:
    stand_in.write(f"[ $(wc -l < {stand_in.calls()}) -gt 1 ] || kill -9 $$\n{write_ending(SEEN, 1)}")
    assert clone.run(kit=stand_in.folder).status == 0
    assert len(stand_in.runs()) == 2
    stand_in.write(f"{write_ending(SEEN, 1)[:-6]}\nkill -9 $$")
    ran = clone.run("--anew", kit=stand_in.folder)
    assert (ran.status, ran.out[-1]) == (1, "0 passed, 1 failed")
    assert find_verdict(ran, "low/two").startswith("NOT TRIED: its check ended with status -9: ")


@pytest.mark.parametrize("status", [2, 3, 101])
def test_a_run_that_gives_no_verdict_is_no_refusal(clone: Clone, stand_in: StandIn, status: int) -> None:
    stand_in.write(write_ending(SEEN, status))
    ran = clone.run(kit=stand_in.folder)
    assert (ran.status, ran.out[-1]) == (1, "0 passed, 1 failed")
    assert find_verdict(ran, "low/two") == f"NOT TRIED: its check ended with status {status}: only=1 proved=0"
    assert not (clone.top / "kept").exists()


def test_a_crate_that_is_proved_with_an_edit_does_not_refuse_it(clone: Clone, stand_in: StandIn) -> None:
    stand_in.write(write_ending("fn low::one: proved\nonly=1 proved=1\n", 0))
    ran = clone.run(kit=stand_in.folder)
    assert find_verdict(ran, "low/two") == "NOT REFUSED: the crate is still proved with this edit"
    group, whole = stand_in.runs()
    assert "--only one" in group and "--incremental" in group and "--allow-holes" in group
    assert "--only" not in whole and "--incremental" not in whole


def test_a_name_that_the_prover_does_not_know_is_asked_for_by_its_module(clone: Clone, stand_in: StandIn) -> None:
    clone.write("low/src/a.rt", "pub fn two() -> u32 {\n    2\n}\n")
    clone.write_edit("low/two", "src/a.rt", "    2", "    3")
    stand_in.write(
        f"case \"$*\" in *a::two*) echo 'error: has no function `a::two`'; exit 2;; esac\n{write_ending(SEEN, 1)}"
    )
    clone.run(kit=stand_in.folder)
    assert "--only a::two" in stand_in.runs()[0]
    assert stand_in.runs()[1].endswith("--only a")


def test_an_edit_of_a_caller_gets_a_run_without_the_edit_of_what_it_calls(clone: Clone, stand_in: StandIn) -> None:
    clone.write("low/src/a.rt", "pub fn two() -> u32 {\n    one() + 1\n}\n")
    clone.write_edit("low/caller", "src/a.rt", "    one() + 1", "    one()")
    calls = "fn low::a::two: no proof: it calls `low::one`, which is not proved\n"
    own = SEEN.replace("lib.rt:4:", "a.rt:1:").replace("low::one", "low::a::two")
    stand_in.write(f'case "$*" in *--only\\ one*)\n{write_ending(calls + SEEN, 1)}\nesac\n{write_ending(own, 1)}')
    ran = clone.run(kit=stand_in.folder)
    assert (ran.status, ran.out[-1]) == (0, "2 passed, 0 failed")
    assert find_verdict(ran, "low/two") == "refused: one, src/lib.rt:4, returns"
    assert find_verdict(ran, "low/caller") == "refused: a::two, src/a.rt:1, returns"
    assert [it.count("--only") for it in stand_in.runs()] == [2, 1]
    kept = [re.findall(r"--incremental (\S+)", it) for it in stand_in.runs()]
    assert kept[0] == kept[1] and len(kept[0]) == 1


def test_a_crate_that_is_refused_elsewhere_only_does_not_refuse_an_edit(clone: Clone, stand_in: StandIn) -> None:
    stand_in.write(write_ending(SEEN.replace("low::one", "low::other").replace("only=1", "logic=not-proved"), 1))
    ran = clone.run(kit=stand_in.folder)
    assert find_verdict(ran, "low/two").startswith("NOT REFUSED: no function that it changes is refused: note: ")


# ---- beside a gate


def test_edits_are_tried_once_the_gate_has_proved_what_is_below(clone: Clone, stand_in: StandIn) -> None:
    stand_in.write(write_ending(SEEN.replace("low", "high"), 1))
    for name in ("src/lib.rt", "must-fail/two.edit"):
        clone.write(f"high/{name}", LOW[f"low/{name}"])
    proved.begin(clone.top)
    running = clone.start("high", "--beside-gate", kit=stand_in.folder)
    time.sleep(2)
    assert stand_in.runs() == []
    clone.write("low/out/rlib/low.rlib/format", "sum 1")
    proved.note(clone.top, "low")
    out, _ = running.communicate(timeout=60)
    assert (running.returncode, out.splitlines()[-1]) == (0, "1 passed, 0 failed")


def test_edits_over_what_the_gate_did_not_prove_are_not_tried(clone: Clone, stand_in: StandIn) -> None:
    stand_in.write(write_ending(SEEN, 1))
    clone.write("high/src/lib.rt", LOW["low/src/lib.rt"])
    clone.write("high/must-fail/two.edit", LOW["low/must-fail/two.edit"])
    proved.begin(clone.top)
    proved.end(clone.top)
    ran = clone.run("--beside-gate", kit=stand_in.folder)
    assert (ran.status, ran.out[-1]) == (1, "1 passed, 1 failed")
    assert find_verdict(ran, "high/two").startswith("NOT TRIED: the gate ended before ")


def test_no_more_runs_begin_than_may() -> None:
    most, seen = [1], list[int]()
    slots = Slots(lambda running: running < most[0])

    def take(_: int) -> None:
        with slots.take():
            seen.append(slots.running)
            time.sleep(0.05)

    with ThreadPoolExecutor(8) as lanes:
        lanes.map(take, range(8))
    assert (max(seen), slots.running) == (1, 0)
    most[0] = 3
    with ThreadPoolExecutor(8) as lanes:
        lanes.map(take, range(24))
    assert (max(seen), slots.running) == (3, 0)


@pytest.mark.parametrize(
    "wrong",
    [
        "./proofs/a/a/Proof.antt:3:5: error: `a_spec`: expected a type",
        "error: `proofs/a/a/Proof.antt` is the proof of no function",
        "src/a.rt:2:5: error[mismatched-types]: expected `u32`",
    ],
)
def test_a_function_that_can_not_be_a_stub_is_proved(clone: Clone, stand_in: StandIn, wrong: str) -> None:
    for name in ("a", "b"):
        clone.write(f"low/src/{name}.rt", f"pub fn {name}() -> u32 {{\n    2\n}}\n")
    stand_in.write(
        f"ls -d proofs/*/* >> {stand_in.calls()}\n[ ! -e proofs/a/a ] || echo '{wrong}'\n{write_ending(SEEN, 1)}"
    )
    assert clone.run(kit=stand_in.folder).status == 0
    assert [it for it in stand_in.runs() if it.startswith("proofs")] == ["proofs/a/a", "proofs/b/b", "proofs/b/b"]


def test_a_run_without_a_verdict_is_made_once_more_without_stubs(clone: Clone, stand_in: StandIn) -> None:
    clone.write("low/src/a.rt", "pub fn a() -> u32 {\n    2\n}\n")
    stand_in.write(f"[ ! -e proofs/a/a ] || {{ echo 'rattle: no verdict'; exit 3; }}\n{write_ending(SEEN, 1)}")
    ran = clone.run(kit=stand_in.folder)
    assert (ran.status, find_verdict(ran, "low/two")) == (0, "refused: one, src/lib.rt:4, returns")
    assert ["--allow-holes" in it for it in stand_in.runs()] == [True, True]


def has_running(group: int) -> bool:
    """Whether a process of a group still runs. (One that has ended may stay in the list of processes for a while.)"""
    words = ["ps", "-e", "-o", "pgid=,stat="]
    lines = subprocess.run(words, stdout=subprocess.PIPE, text=True, check=True).stdout.splitlines()
    return any(line.split()[0] == str(group) and not line.split()[1].startswith("Z") for line in lines)


def test_a_signal_ends_all_runs_and_removes_their_copies(clone: Clone, stand_in: StandIn) -> None:
    for number in (signal.SIGINT, signal.SIGTERM):
        stand_in.calls().unlink(missing_ok=True)
        stand_in.write(f"echo $$ > {clone.top}/process\nsleep 1000")
        running = clone.start("--jobs", "1", kit=stand_in.folder)
        deadline = time.monotonic() + 30
        while not stand_in.runs() or not (clone.top / "process").exists():
            assert time.monotonic() < deadline
            time.sleep(0.05)
        running.send_signal(number)
        running.communicate(timeout=30)
        assert running.returncode == 128 + number
        assert list((clone.top / "room").iterdir()) == []
        assert not has_running(int((clone.top / "process").read_text()))
        (clone.top / "process").unlink()


def read_fault(ran: Ran) -> str:
    """The one line of a call that tried nothing."""
    assert (ran.status, ran.out, len(ran.err)) == (2, [], 1)
    return ran.err[0]


def test_what_can_not_be_tried_is_refused(clone: Clone, stand_in: StandIn) -> None:
    stand_in.write(write_ending(SEEN, 1))
    assert read_fault(clone.run("none", kit=stand_in.folder)) == "refused: crates.txt lists no crate none"
    said = read_fault(clone.run("high", kit=stand_in.folder))
    assert said.startswith(f"refused: not built in {clone.top}: low; ")


def test_libraries_are_taken_from_the_clone_that_is_named(clone: Clone, stand_in: StandIn) -> None:
    stand_in.write(write_ending(SEEN.replace("low", "high"), 1))
    for name in ("src/lib.rt", "must-fail/two.edit"):
        clone.write(f"high/{name}", LOW[f"low/{name}"])
    other = clone.top / "other"
    library = other / "crates/low/out/rlib/low.rlib"
    library.mkdir(parents=True)
    (library / "format").write_text("sum 1")
    assert clone.run("high", "--libraries", str(other), kit=stand_in.folder).status == 0
    [words] = stand_in.runs()
    assert f"--extern low={library} " in words and f"-L dependency={library.parent} " in words
    assert f"--extern std={stand_in.folder}/rlibs/std.rlib " in words


# ---- the whole tool, over the prover

SMALL = {
    "small/src/lib.rt": """\
//! Small numbers.
#![tactic(auto)]

ghost use Rattle.std.specs.Prelude.{◌≡◌, ◌≤◌, ◌*◌, ◌+◌};
ghost use Rattle.small.specs.Half.{half_of};

const MOST: u32 = 100;

/// Twice a number.
pub fn double(x: u32) -> u32
    requires { x ≤ 1000 }
    ensures { result ≡ 2 * x }
{
    x + x
}

/// Four times a number.
pub fn quadruple(x: u32) -> u32
    requires { x ≤ 100 }
    ensures { result ≡ 4 * x }
{
    let once = double(x);
    double(once)
}

/// Three times a number.
pub fn triple(x: u32) -> u32
    requires { x ≤ 100 }
    ensures { result ≡ 3 * x }
{
    double(x) + x
}

/// Half of a number, rounded down.
pub fn half(x: u32) -> u32
    ensures { result ≡ half_of x }
{
    x / 2
}

/// The lesser of a number and 100.
pub fn at_most(x: u32) -> u32
    ensures { result ≤ 100 }
{
    if x <= MOST { x } else { MOST }
}

/// One more than a number.
pub fn next(x: u32) -> u32
    requires { x ≤ 100 }
    ensures { result ≡ 1 + x }
{
    x + 1
}
""",
    "small/specs/Lib.antt": "pub mod Half\n",
    "small/specs/Half.antt": """\
-- Halves.
use Rattle.std.specs.Prelude.{ℕ, ◌/◌}

-- half of a number, rounded down
unfoldable pub half_of : ℕ → ℕ
half_of x = x / 2
""",
    "small/proofs/half/Answers.antt": """\
-- Both are the quotient.
use Rattle.std.proofs.Common.{refl}
use Rattle.small.specs.Half.{half_of}
use Rattle.small.proofs.half.Goals as goal

pub returns : goal.returns
unfolding half_of
returns c = refl
""",
}
SMALL_EDITS = {
    "double-is-one-more": ("    x + x", "    x + x + 1"),
    "next-is-the-one-after": ("    x + 1", "    x + 2"),
    "quadruple-is-double": ("    double(once)", "    once"),
    "harmless-caller": ("    double(x) + x", "    x + double(x)"),
    "harmless-with-a-proof-file": ("    x / 2", "    (x / 2)"),
    "harmless-constant": ("MOST: u32 = 100;", "MOST: u32 = 99 + 1;"),
    "bad-text": ("    x - 1", "    x"),
    "bad-name": ("if x <= MOST", "if x <= LEAST"),
}


def file_of_pass() -> Path:
    """The user's file that is there once the next test passed with the same tool, crate, edits and toolchain."""
    tool = [ROOT / "tools" / name for name in ("refused", "crates.py", "proved.py")]
    tool += sorted((ROOT / "tools/edits").glob("*.py"))
    kit = Path(os.path.realpath(shutil.which("rt") or "rt")).parents[1]
    sums = sum_files([Path(__file__), *tool]), sum_kit(kit)
    return choose_folder().with_name("refused-small") / "-".join(sums)


@pytest.mark.skipif(not shutil.which("rt"), reason="there is no rt, the Rattle toolchain")
def test_the_prover_refuses_what_it_must(tmp_path: Path, sample: Sample) -> None:
    """A short run doesn't repeat it as long as nothing changed that it reads."""
    passed = file_of_pass()
    if passed.exists() and not sample.is_long:
        return
    clone = Clone(tmp_path / "here", SMALL, "small:\n")
    for name, (old, new) in SMALL_EDITS.items():
        clone.write_edit(f"small/{name}", "src/lib.rt", old, new)
    before = clone.files()
    ran = clone.run("--jobs", "1", "--logs", str(tmp_path / "logs"))
    print("\n".join([*ran.out, *ran.err]))
    said = {name: find_verdict(ran, f"small/{name}") for name in SMALL_EDITS}
    assert said["double-is-one-more"] == "refused: double, src/lib.rt:10, returns"
    assert said["next-is-the-one-after"] == "refused: next, src/lib.rt:49, returns"
    assert said["quadruple-is-double"] == "refused: quadruple, src/lib.rt:18, returns"
    still = "NOT REFUSED: the crate is still proved with this edit"
    assert {name for name, text in said.items() if text == still} == {
        edit for edit in SMALL_EDITS if "harmless" in edit
    }
    assert said["bad-text"].startswith("BAD EDIT: an 'old:' text is in src/lib.rt 0 times")
    assert said["bad-name"].startswith("BAD EDIT: it can't be read, so no contract was tried: src/lib.rt:45:")
    assert (ran.status, ran.out[-1]) == (1, "3 passed, 5 failed")
    assert clone.files() == before
    with contextlib.suppress(OSError):
        passed.parent.mkdir(parents=True, exist_ok=True)
        passed.touch()
