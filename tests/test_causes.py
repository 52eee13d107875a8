"""A reply 90 has its cause, and who answers a caller has no book: what the types of `cpi_office` leave open is listed here.

The clauses of `Office::answer` bind each 90 to a call of the book whose failure was counted, or to an error of memory. An
error of memory could be made by hand. So each place that makes a fault is listed with its reason, and the test fails at one that isn't listed.
"""

from __future__ import annotations

import pytest
from edits.sources import Crate, list_items, read_crate

from lib.causes import (
    Place,
    find_growths,
    find_held_books,
    find_made_failures,
    find_made_faults,
    find_made_tokens,
    find_named_faults,
    find_notes,
    find_renamed,
    find_streams,
    find_tokens_of_callers,
)
from lib.places import ROOT

REASONS = {
    Place("cause::reply_of", "Err(_) => Reply::Refused(Refusal::Unavailable),"): "the only 90 there is",
    Place("cause::CauseFrom::from", "Cause { is_store: true }"): "the cause of a fault of the store",
    Place("cause::CauseFrom::from", "Cause { is_store: false }"): "the cause of an error of memory",
    Place("freeze::answer_fault", "FreezeFault::Group => Err(Cause::from(StoreFault)),"): "a read of groups failed",
    Place(
        "freeze::answer_fault", "FreezeFault::Index(IndexFault::NoMemory) => Err(Cause::from(AllocError)),"
    ): "the index had no memory",
    Place("plans::find_plan", "Err(AllocError) => Ok(Err(AllocError)),"): "handed on",
    Place("plans::build", "Err(PlanFault::NoMemory) => Err(AllocError),"): "the plan had no memory",
    Place("refusal::Refusal::number", "Refusal::Unavailable => 90,"): "its number",
}
"""Each place of a body that makes a fault, a cause or a 90, and why it may."""

OTHER_REASONS = {
    (
        "cpi_release",
        Place("printed_table::records", "return Err(AllocError);"),
    ): "the list of a table's lines can't grow",
    ("cpi_wire", Place("answers::is_failure", "matches!(reply, Reply::Refused(Refusal::Unavailable))")): "only asks",
    (
        "cpi_wire",
        Place("answers::answer_one", "reply: Reply::Refused(Refusal::Unavailable),"),
    ): "the office gave a cause",
    ("cpi_wire", Place("input::next_row", "Err(_) => Err(AllocError),")): "a row couldn't be copied",
    ("cpi_wire", Place("values::name_of", "Err(NameFault::NoMemory) => Err(AllocError),")): "a name had no memory",
    ("cpi_http", Place("routes::Routes::new", "Err(_) => Err(AllocError),")): "the router had no memory",
    (
        "cpi_http",
        Place("statuses::status_of_refusal", "Refusal::Unavailable => StatusCode::SERVICE_UNAVAILABLE,"),
    ): "its status",
    ("cpi_app", Place("connection::serve_front", "return Err(Failure::from(AllocError));")): "no room for the buffer",
    (
        "cpi_app",
        Place("replay::replay_over_book", "return (book, Err(Failure::from(AllocError)));"),
    ): "no room for the buffer",
    (
        "cpi_app",
        Place("shake::shake_of_served", "Served::Answered(_, true) => Some(Shake::Unavailable),"),
    ): "a 90 was sent",
    (
        "cpi_app",
        Place("shake::ShakeDisplay::fmt", 'Shake::Unavailable => write!(f, "a request was refused by 90"),'),
    ): "its line",
}
"""The same of the crates that store, read and write: an error of memory, or a word for a 90."""

FAILURES = {
    Place("input::failure_of", "ErrorKind::OutOfMemory => Failure::of(WireFault::NoMemory),"): "a record had no memory",
    Place("input::failure_of", "_ => Failure::of(WireFault::Read),"): "the reader of records failed",
    Place("read_note::ReadNote::new", "ReadNote {"): "nothing was read yet",
    Place("read_note::ReadNote::read_some", "Err(Failure::of(WireFault::Read))"): "a read failed, or none is left",
    Place("records::answer_records", "return Err(Failure::of(WireFault::Read));"): "there are too many records",
    Place("write_note::WriteNote::new", "WriteNote {"): "nothing was written yet",
    Place("write_note::WriteNote::write_whole", "Err(Failure::of(fault))"): "a write failed",
}
"""Each place of `cpi_wire` that makes a failure, or a note of reading or of writing, and why it may."""

NOTES = {
    ("cpi_wire", Place("records::answer_records", "note.write_whole(writer, &answer.line)?;")): "a line",
    ("cpi_wire", Place("records::replay", "let mut note = WriteNote::new();")): "of the caller's writer",
    (
        "cpi_http",
        Place("body::read_body", "let n = note.read_some(reader, &mut body[at..])?;"),
    ): "what is left of a body",
    ("cpi_http", Place("read::read_byte", "if note.read_some(reader, &mut byte)? == 0 {")): "one byte",
    ("cpi_http", Place("serve::write_both", "note.write_whole(writer, front)?;")): "the front of a response",
    ("cpi_http", Place("serve::write_both", "note.write_whole(writer, rest)")): "the rest of it",
    (
        "cpi_http",
        Place("serve::serve_one", "let (mut read_note, mut write_note) = (ReadNote::new(), WriteNote::new());"),
    ): "of the caller's streams",
    ("cpi_app", Place("connection::serve_front", "let mut note = ReadNote::new();")): "of the peer's reader",
    (
        "cpi_app",
        Place("peer::serve_peer", "let (mut read_note, mut write_note) = (BufferNote::new(), WriteNote::new());"),
    ): "of the peer's streams",
    (
        "cpi_app",
        Place(
            "backlog::BacklogListener::serve_next",
            "let (mut read_note, mut write_note) = (BufferNote::new(), WriteNote::new());",
        ),
    ): "of the peer's streams",
    ("cpi_app", Place("replay::replay_over_office", "let mut note = WriteNote::new();")): "of the caller's writer",
    ("cpi_app", Place("offered::Offered::new", "note: OfferNote::new(),")): "of the peer's writer",
    ("cpi_app", Place("table::print_table", "note.write_line(err, fault);")): "the line of a fault",
    ("cpi_files", Place("table::PrintBookJob::run", "let mut note = OfferNote::new();")): "of standard error",
    ("cpi_files", Place("program::run", "note.write_line(&mut ends.errors, fault);")): "the line of a fault",
    (
        "cpi",
        Place("main", "ExitCode::from(run(rt.alloc(), &rt, &mut OfferNote::new()))"),
    ): "of standard error",
    (
        "cpi_app",
        Place("offered::OfferedWrite::write", "if let Some(count) = self.note.write_some(&mut self.writer, buf) {"),
    ): "what the peer is offered",
    (
        "cpi_app",
        Place(
            "port::OpenPortListener::serve_next",
            "let note: OfferNote<Timed<'_, N::Writer, N>> = OfferNote::new();",
        ),
    ): "of a peer to whom nothing was written",
}
"""Each place that makes a note of reading or writing, or uses one, and for what."""

MESSAGES = ("cpi_wire", "cpi_http", "cpi_app")
"""The crates that carry a message."""

GROWTHS = {
    ("cpi_wire", Place("fields::field_list", "let mut fields = Vec::with_capacity(alloc, row.len())?;")): "its fields",
    ("cpi_wire", Place("line::work_row_value", "let mut fields = Vec::with_capacity(alloc, 9)?;")): "its nine values",
    ("cpi_http", Place("body::receive_body", "let mut body = vec![in alloc; 0; n]?;")): "its length, up to the limit",
    ("cpi_http", Place("bytes::head_text", "format!(in alloc;")): "a head",
}
"""Each place of these that asks for memory by a size, and of what. A larger one could be refused at will."""

SIGHTS = ["public", "own_parts", "published", "latest_published", "published_table", "put_own_quote"]
"""What one may ask of a sight."""

TOKENS = [
    Place("callers::serve_public", "answer_public(alloc, book, Present { moment: now }, request)"),
    Place("callers::serve_collector", "Present { moment: now },"),
    Place("callers::serve_collector", "Bearer { registration },"),
    Place("callers::serve_desk", "Request::Tables => tables(book, Present { moment: now }),"),
    Place("callers::serve_desk", "table(alloc, book, Present { moment: now }, month, form, edition)"),
]
"""Each place that makes what one sees an office by."""

ANSWERS = """\
pub fn items<S: Sight>(sight: &mut S) -> Result<Reply, Cause>
    ensures { result ≡ result }
{
    Ok(Reply::Items)
}
"""


@pytest.fixture(scope="module")
def office() -> Crate:
    return read_crate(ROOT / "crates/cpi_office")


def make_crate(body: str, file: str = "src/items.rt") -> Crate:
    """A crate with one function that answers from a sight, and has this line in its body."""
    text = ANSWERS.replace("    Ok(Reply::Items)", f"    {body}")
    return Crate("small", {file: text}, list(list_items(file, text, {})))


def test_each_fault_that_is_made_by_hand_has_its_reason(office: Crate) -> None:
    assert sorted(find_made_faults(office)) == sorted(REASONS)


def test_only_one_file_makes_what_one_sees_an_office_by(office: Crate) -> None:
    assert find_made_tokens(office) == []
    assert find_tokens_of_callers(office) == TOKENS


def test_no_fault_or_token_has_another_name(office: Crate) -> None:
    assert find_renamed(office) == []


def test_no_fault_of_a_message_has_another_name() -> None:
    crates = [read_crate(ROOT / "crates" / name) for name in MESSAGES]
    assert [(crate.name, line) for crate in crates for line in find_renamed(crate)] == []


def test_no_message_asks_for_memory_by_another_size() -> None:
    crates = [read_crate(ROOT / "crates" / name) for name in MESSAGES]
    found = [(crate.name, place) for crate in crates for place in find_growths(crate)]
    assert sorted(found) == sorted(GROWTHS)


def test_no_body_asks_for_memory_by_a_size(office: Crate) -> None:
    assert find_growths(office) == []


def test_no_other_crate_makes_a_90_without_a_reason() -> None:
    folders = (path for path in (ROOT / "crates").iterdir() if path.name not in ("cpi_office", "cpi_tests"))
    crates = [read_crate(path) for path in sorted(folders)]
    found = [(crate.name, place) for crate in crates for place in find_named_faults(crate)]
    assert sorted(found) == sorted(OTHER_REASONS)


def test_a_sight_shows_these_six_things_and_no_more(office: Crate) -> None:
    methods = [item.word() for item in office.items if item.file == "src/sight.rt"]
    assert methods == 2 * SIGHTS
    assert "pub trait Sight {\n" in office.texts["src/sight.rt"]


def test_no_function_with_a_sight_has_a_book(office: Crate) -> None:
    assert find_held_books(office) == []
    assert sum("S: Sight" in item.text for item in office.items) == 16


def test_only_the_wire_makes_a_failure_and_each_has_its_reason() -> None:
    crates = [read_crate(ROOT / "crates" / name) for name in ("cpi_wire", "cpi_http", "cpi_app", "cpi_files", "cpi")]
    found = [(crate.name, place) for crate in crates for place in find_made_failures(crate)]
    assert sorted(found) == sorted(("cpi_wire", place) for place in FAILURES)


def test_notes_are_made_and_used_only_for_the_peers_streams() -> None:
    crates = [read_crate(ROOT / "crates" / name) for name in (*MESSAGES, "cpi_files", "cpi")]
    found = [(crate.name, place) for crate in crates for place in find_notes(crate)]
    assert sorted(found) == sorted(NOTES)


@pytest.mark.parametrize("body", ["ReadNote::<Empty>::new()", "read_note.read_some(reader, &mut [0u8; 0])?;"])
def test_a_note_that_is_used_up_is_found(body: str) -> None:
    assert find_notes(make_crate(body)) == [Place("items::items", body)]


def test_nothing_that_gives_up_a_message_has_a_stream_of_its_own() -> None:
    assert find_streams(read_crate(ROOT / "crates/cpi_http")) == []
    assert find_streams(read_crate(ROOT / "crates/cpi_wire")) == ["CallCountingReader"]
    assert find_streams(read_crate(ROOT / "crates/cpi_app")) == ["Offered", "Timed", "Timed"]


@pytest.mark.parametrize(
    "body",
    [
        "if dear { return Err(Cause::from(AllocError)); } Ok(Reply::Items)",
        "Err(AllocError)?",
        "return Err(StoreFault.into());",
        "Ok(Reply::Refused(Refusal::Unavailable))",
        "Err(Cause { is_store: false })",
        "Err(Self { is_store: false })",
        "Err(std::alloc::AllocError)?",
        "Err(cpi_store::StoreFault)?",
        "None => AllocError,",
        "AllocError,",
        "Err(AllocError {})?",
    ],
)
def test_a_fault_that_a_body_makes_is_found(body: str) -> None:
    assert find_made_faults(make_crate(body)) == [Place("items::items", body)]


@pytest.mark.parametrize("body", ["let found: Result<(), AllocError> = read();", "Ok(Reply::Items) // AllocError"])
def test_the_name_of_a_fault_is_none(body: str) -> None:
    assert find_made_faults(make_crate(body)) == []


@pytest.mark.parametrize(
    "line",
    [
        "std::alloc::AllocError as Full",
        "Refusal as No",
        "pub(crate) const FULL: AllocError = AllocError;",
        "type Full = AllocError;",
        "static NONE: Refusal = Refusal::NoTable;",
        "macro_rules! full {",
        "crate::failure::Failure as Full",
        "type Note = crate::WriteNote<Lost>;",
    ],
)
def test_another_name_of_a_fault_is_found(line: str) -> None:
    [found] = find_renamed(Crate("small", {"src/items.rt": f"use a::{{B}}; // Cause as C\n{line}\n"}, []))
    assert line.endswith(found)


def test_a_growth_by_a_size_is_found() -> None:
    body = "let names: Vec<u8> = Vec::with_capacity(alloc, first)?;"
    assert find_growths(make_crate(body)) == [Place("items::items", body)]


def test_a_token_that_another_file_makes_is_found() -> None:
    body = "tables(sight, Present { moment })"
    assert find_made_tokens(make_crate(body)) == [Place("items::items", body)]
    assert find_made_tokens(make_crate(body, "src/callers.rt")) == []
    assert find_tokens_of_callers(make_crate("Self { moment }", "src/callers.rt")) != []


def test_a_book_beside_a_sight_is_found() -> None:
    assert find_held_books(make_crate("book.own(first)")) == ["items::items"]
    assert find_held_books(make_crate("sight.own_parts(bearer) // no book")) == []


@pytest.mark.parametrize("body", ["Err(Failure::of(WireFault::Read))", "Err(Failure { fault: WireFault::Read })"])
def test_a_failure_that_another_file_makes_is_found(body: str) -> None:
    assert find_made_failures(make_crate(body)) == [Place("items::items", body)]
    assert find_made_failures(make_crate(body, "src/failure.rt")) == []


def test_a_stream_is_found() -> None:
    texts = {"src/a.rt": "impl<R> Read for Broken<R> {}\n// impl Write for None\nimpl io::Write for Lost {}\n"}
    assert find_streams(Crate("small", texts, [])) == ["Broken", "Lost"]
