"""`tools/plants`: the house's own ways to give up, as bodies of a function, and what becomes of them by a stand-in."""

from __future__ import annotations

import shutil
from collections.abc import Mapping
from pathlib import Path

import pytest

from edits.prover import Libraries
from edits.sources import Crate, list_items
from house.bodies import list_conditions, list_flags, put_under_conditions, list_ways
from house.heads import Head, Kinds, read_head, read_kinds
from house.trial import try_crate

NOTES = """\
//! Notes.
use crate::cause::{Cause, Reply};

/// Notes of reading.
pub struct Note<R> {
    left: u32,
    has_failed: bool,
}

impl<R: Read> Note<R> {
    /// Reads some bytes.
    pub fn read_some(&mut self, reader: &mut R, buf: &mut [u8]) -> Result<usize, AllocError>
        requires { 0 < self.old.left }
        ensures fault { IfErr result (λ e. self.new.has_failed ≡ true) }
    {
        reader.read(buf)
    }

    fn plain(&self) -> bool {
        self.has_failed
    }
}

impl<R: Read> Read for Note<R> {
    fn read(&mut self, buf: &mut [u8]) -> io::Result<usize>
        ensures bound { AtMost result }
    {
        Ok(0)
    }
}

#[tactic(auto, using(crate::proofs::Named::named))]
pub fn items<S: Sight>(
    alloc: Global,
    sight: &mut S,
    month: Month,
    caller: Caller,
    text: &[u8],
) -> Result<Reply, Cause>
    ensures { Answers (S.state sight.old) result (λ x. x → x) }
{
    Ok(Reply::Items(0))
}

fn of_pair((a, b): (u8, u8)) -> bool
    ensures { result ≡ true }
{
    a == b
}
"""
CAUSES = """\
pub struct Cause {
    is_store: bool,
}

/// Replies.
pub enum Reply {
    /// Rows.
    Items(u32),
    Refused(Refusal),
}
"""
CODES = """\
pub enum Caller {
    /// Anybody.
    Public,
    Desk,
}

pub struct Month(u16);

impl Month {
    /// Its place.
    pub fn index(self) -> u16 {
        self.0
    }
}
"""


def crate_of(name: str, texts: Mapping[str, str]) -> Crate:
    homes = {"Note": "notes", "Month": "codes"}
    return Crate(name, dict(texts), [item for path, text in texts.items() for item in list_items(path, text, homes)])


HIGH = crate_of("high", {"src/notes.rt": NOTES, "src/cause.rt": CAUSES})
LOW = crate_of("low", {"src/codes.rt": CODES})


@pytest.fixture
def kinds() -> Kinds:
    return read_kinds(HIGH, [LOW])


def head_of(name: str) -> Head:
    heads = [head for item in HIGH.items if (head := read_head(HIGH, item))]
    return next(head for head in heads if head.item.name == name)


# ---- heads


def test_a_head_has_what_the_function_takes_and_gives() -> None:
    head = head_of("notes::items")
    assert head.generics == ("S: Sight",) and head.receiver == "" and not head.is_of_trait
    assert [parameter for _, parameter in head.parameters] == ["Global", "&mut S", "Month", "Caller", "&[u8]"]
    assert (head.gives, head.call()) == ("Result<Reply, Cause>", "items::<S>(alloc, sight, month, caller, text)")


def test_a_method_is_called_of_self_and_one_of_a_trait_is_known() -> None:
    head = head_of("notes::Note::read_some")
    assert (head.receiver, head.gives) == ("&mut self", "Result<usize, AllocError>")
    assert head.call() == "self.read_some(reader, buf)"
    assert head_of("notes::NoteRead::read").is_of_trait and head_of("notes::NoteRead::read").body() == "        Ok(0)"


def test_functions_without_a_contract_or_with_patterns_are_left_out() -> None:
    names = [head.item.name for item in HIGH.items if (head := read_head(HIGH, item))]
    assert names == ["notes::Note::read_some", "notes::NoteRead::read", "notes::items"]


def test_types_have_homes_questions_and_flags(kinds: Kinds) -> None:
    assert {"Cause": "crate::cause::Cause", "Month": "low::Month"}.items() <= kinds.homes.items()
    assert kinds.questions == {
        "Caller": "matches!({}, Caller::Public)", "Month": "{}.index() > 7", "Reply": "matches!({}, Reply::Items(..))"
    }  # fmt: skip
    assert kinds.flags == {"Note": ("has_failed",), "Cause": ("is_store",)}


# ---- bodies


def test_a_function_that_answers_gives_up_by_90_and_by_a_cause_at_hand() -> None:
    assert [way.text for way in list_ways(head_of("notes::items"))] == [
        "Ok(Reply::Refused(Refusal::Unavailable))",
        "Err(Cause::from(AllocError))",
        "Err(Cause::from(StoreFault))",
    ]


def test_a_flag_falls_before_a_fault_and_before_the_right_answer(kinds: Kinds) -> None:
    assert [flag.text for flag in list_flags(head_of("notes::Note::read_some"), kinds)] == [
        "self.has_failed = true; Err(AllocError)",
        "self.has_failed = true; self.read_some(reader, buf)",
        "self.has_failed = false; Err(AllocError)",
        "self.has_failed = false; self.read_some(reader, buf)",
    ]
    texts = [flag.text for flag in list_flags(head_of("notes::NoteRead::read"), kinds)]
    assert "self.has_failed = false; Ok(buf.len())" in texts and any("Ok(0)" in text for text in texts)


def test_a_right_answer_is_put_under_conditions_on_the_input(kinds: Kinds) -> None:
    head = head_of("notes::items")
    texts = ["month.index() > 7", "matches!(caller, Caller::Public)"]
    assert list_conditions(head, kinds) == texts
    first = next(iter(put_under_conditions(head, kinds, list_ways(head))))
    assert first.text == f"if {texts[0]} {{ Ok(Reply::Refused(Refusal::Unavailable)) }} else {{ {head.call()} }}"


# ---- the trial

RATTLE = """\
#!/usr/bin/python3
import os, re, sys
from pathlib import Path

names = [it for at, it in enumerate(sys.argv) if sys.argv[at - 1] == "--only"]
with open({calls!r}, "a") as calls:
    print(len(names), os.path.isdir("proofs/notes/NoteRead/read"), file=calls)
for path in Path("src").glob("*.rt"):
    for line, text in enumerate(path.read_text().split("\\n"), 1):
        if "StoreFault" in text and "planted" not in text:
            sys.exit(print(f"{{path}}:{{line}}:5: error[private]: no") or 1)
for name in names:
    word = name.rpartition("::")[2]
    body = re.split(rf"fn {{word}}\\b", Path("src/notes.rt").read_text())[1].partition("{{\\n")[2].partition("\\n}}")[0]
    if {proved!r} and re.search({proved!r}, body):
        print(f"fn high::{{name}}: proved")
    else:
        print("note: src/notes.rt:1:1: it is not proved that what it ensures holds (`returns`)")
        print(f"fn high::{{name}}: not proved")
print(f"only={{len(names)}}")
"""


class House:
    """A repository with the crate `high` over `low`, and a stand-in that proves bodies with a text."""

    def __init__(self, top: Path) -> None:
        self.top = top
        for crate in (HIGH, LOW):
            for path, text in crate.texts.items():
                self.write(f"crates/{crate.name}/{path}", text)
        self.write("crates/high/proofs/notes/NoteRead/read/Answers.antt", "")
        self.libraries = Libraries(top / "kit", top, {"low": [], "high": ["low"]})

    def write(self, name: str, text: str) -> Path:
        path = self.top / name
        path.parent.mkdir(parents=True, exist_ok=True)
        path.write_text(text)
        return path

    def calls(self) -> list[str]:
        return (self.top / "calls").read_text().splitlines()

    def tried(self, proved: str, only: str) -> list[str]:
        """What is said of the functions with this word, if the prover proves the bodies with that text."""
        text = RATTLE.format(calls=str(self.top / "calls"), proved=proved)
        self.write("kit/bin/rattle", text).chmod(0o755)
        (self.top / "room").mkdir(exist_ok=True)
        return try_crate(self.top, "high", self.libraries, self.top / "room", [only])


@pytest.fixture
def house(tmp_path: Path) -> House:
    return House(tmp_path)


def test_a_body_that_proves_is_a_line_and_is_tried_under_no_condition(house: House) -> None:
    lines = house.tried("AllocError|items::<S>", "notes::items")
    assert lines[0].startswith("house src/notes.rt:33 notes::items: { Err(Cause::from(AllocError)) }"), lines
    assert "if month.index() > 7 { Ok(Reply::Refused(Refusal::Unavailable)) }" in lines[1]
    assert len(lines) == 3 and lines[2].startswith("house crate=high proves=3 refused=1 ")


def test_nothing_is_tried_under_a_condition_if_the_own_answer_is_not_proved(house: House) -> None:
    counts = "proves=0 refused=2 elsewhere=0 not-judged=0 not-source=1 own-answer-not-judged=1"
    assert house.tried("", "notes::items") == [f"house crate=high {counts}"]


def test_a_body_that_is_not_read_is_left_out_and_the_others_tried_again(house: House) -> None:
    assert "not-source=1" in house.tried("", "notes::items")[-1]
    assert [call.split()[0] for call in house.calls()] == ["4", "3"]


def test_a_method_of_a_trait_is_tried_in_its_place_without_its_proof(house: House) -> None:
    lines = house.tried(r"Ok\(buf\.len\(\)\)", "NoteRead::read")
    assert lines[0].startswith("house src/notes.rt:25 notes::NoteRead::read: { Ok(buf.len()) }")
    assert {call.split()[0] for call in house.calls()} == {"1"} and not any("True" in call for call in house.calls())
    assert (house.top / "crates/high/proofs/notes/NoteRead/read/Answers.antt").exists()


# ---- the prover itself

SMALL = """\
//! A small crate.
#![tactic(auto)]
ghost use Rattle.std.specs.Prelude.{◌≡◌, ◌≤◌, IfSome, Some};

/// The number, which is at most 90.
pub fn at_most(number: u64) -> Option<u64>
    ensures { IfSome result (λ n. n ≤ 90) }
{
    if number > 90 { None } else { Some(number) }
}

/// The number, as it is.
pub fn exactly(number: u64) -> Option<u64>
    ensures { result ≡ Some number }
{
    Some(number)
}
"""


@pytest.mark.long
@pytest.mark.skipif(not shutil.which("rt"), reason="there is no rt")
def test_the_prover_lets_a_body_through_only_if_the_contract_does(tmp_path: Path) -> None:
    kit = Path(shutil.which("rt") or "").resolve().parents[1]
    folder = tmp_path / "crates/small/src"
    folder.mkdir(parents=True)
    (folder / "lib.rt").write_text(SMALL, encoding="utf-8")
    (tmp_path / "room").mkdir()
    lines = try_crate(tmp_path, "small", Libraries(kit, tmp_path, {"small": []}), tmp_path / "room")
    assert lines[:-1] == ["house src/lib.rt:6 at_most: { None }"]
    assert lines[-1].startswith("house crate=small proves=1 ") and lines[-1].endswith(" own-answer-not-judged=0")
