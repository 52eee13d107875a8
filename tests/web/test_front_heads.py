"""No address writes into the head of a reply: what the front answers has the fields that it has by itself, whatever the
path that was asked has in it."""

from __future__ import annotations

import re
import socket

import pytest

from lib.places import ROOT
from .peers import Peer
from .stage import Stage

EVIL = {
    "fields": "%0d%0aSet-Cookie:%20cpi_desk=evil;%20Path=/desk%0d%0aX-Injected:%20yes",
    "lines": "%0aX-Injected:%20yes",
    "body": "%0d%0aContent-Length:%200%0d%0a%0d%0a<script>alert(1)</script>",
    "end": "%0a",
    "twice": "%250d%250aX-Injected:%20yes",
}
"""What is put at the end of a path."""

PLACES = (
    "/", "/a", "/index.html", "/desk", "/desk/", "/desk/sign-in", "/published", "/published/", "/published/data/",
    "/tables", "/tables/", "/collect", "/collect/", "/config.js", "/calendar.json", "/away.html", "/api/items",
    "/opening.json",
    "/api/tables", "/api/table/2011-02/text", "/api/table/2011-02/csv/1", "/notes/2011-02", "/notes/2011-02/7",
    "/notes/questions", "/notes/2011-02/questions/7", "/.well-known/acme-challenge/", "/wait", "/second", "/nowhere",
)  # fmt: skip
"""The routes of the front, and some addresses without one."""


def plain(stage: Stage, path: str) -> bytes:
    """What port 80 answers to a path."""
    with socket.create_connection(("127.0.0.1", stage.plain_port), 60) as line:
        line.sendall(f"GET {path} HTTP/1.1\r\nHost: localhost\r\nConnection: close\r\n\r\n".encode())
        found = b""
        while piece := line.recv(65536):
            found += piece
    return found


def secret(stage: Stage, path: str, method: str = "GET") -> bytes:
    """What port 443 answers to a path."""
    with Peer(stage) as peer:
        peer.send(f"{method} {path} HTTP/1.1\r\nHost: localhost\r\nContent-Length: 0\r\nConnection: close\r\n\r\n")
        return peer.rest()


def fault_of(answer: bytes) -> str:
    """What an answer has that a path put there; nothing if it is as it should be."""
    head, end, body = answer.partition(b"\r\n\r\n")
    lines = head.decode("latin-1").replace("\r", "\n").split("\n")
    if not end or not re.match(r"HTTP/1\.1 [2345]\d\d ", lines[0]):
        return f"no answer: {answer[:200]!r}"
    # (a path may stand in Location, as it was asked)
    injected = [line for line in lines[1:] if re.match(r"(?i)(x-injected|set-cookie) *:", line)]
    if injected or body.startswith(b"<script>"):
        return f"{lines} {body[:40]!r}"
    return ""


@pytest.mark.parametrize("name", EVIL)
def test_no_path_writes_into_a_head(name: str, stage: Stage) -> None:
    faults = []
    for place in PLACES:
        asked = place + EVIL[name]
        answers = {"80": plain(stage, asked), "443": secret(stage, asked), "443 POST": secret(stage, asked, "POST")}
        faults += [f"{port} {asked}: {fault}" for port, answer in answers.items() if (fault := fault_of(answer))]
    assert faults == []


def test_a_path_with_a_line_end_is_no_page_of_the_office(stage: Stage) -> None:
    for path in ("/api/items", "/api/tables", "/api/table/2011-02/text", "/api/table/2011-02/text/1"):
        assert secret(stage, f"{path}%0a").startswith(b"HTTP/1.1 404 "), path
        assert secret(stage, f"{path}%0a%0a").startswith(b"HTTP/1.1 404 "), path
    assert secret(stage, "/api/items").startswith(b"HTTP/1.1 200 ")


@pytest.mark.parametrize(
    "asked, to",
    [
        ("/", "/"),
        ("/desk/log", "/desk/log"),
        ("/published/caf%C3%A9", "/published/caf%C3%A9"),
        ("/collect/?x=1", "/collect/"),
        ("/a%0d%0aX-Injected:%20yes", "/a%0d%0aX-Injected:%20yes"),
        ("http://other.example/desk/", "/desk/"),
    ],
)
def test_port_80_leads_to_the_same_path_by_tls(asked: str, to: str, stage: Stage) -> None:
    head = plain(stage, asked).partition(b"\r\n\r\n")[0].decode()
    assert head.startswith("HTTP/1.1 301 ") and re.findall(r"\r\nLocation: (.*)", head) == [f"https://localhost{to}"]


def test_the_other_ways_lead_where_they_did(stage: Stage) -> None:
    for asked, status, to in (("/desk", 301, "/desk/"), ("/published", 301, "/published/"), ("/tables", 302, "/")):
        answer = stage.ask("GET", asked)
        assert (answer.status, answer.fields["Location"]) == (status, to)


IN_A_HEAD = re.compile(
    r"^\s*(?:location \S+ \{ *)?(return|rewrite|add_header|proxy_redirect|proxy_set_header)\b(.*)$", re.M
)


def test_no_field_and_no_address_is_of_a_decoded_path() -> None:
    """In a field, or in the address to which a reply leads, nginx would write out what a path has in its code."""
    text = (ROOT / "ops/nginx.conf").read_text(encoding="utf-8")
    elements = [(word, rest) for word, rest in IN_A_HEAD.findall(text)]
    assert len(elements) > 20
    assert [element for element in elements if re.search(r"\$(document_)?uri\b", element[1])] == []
    # what a map makes of a path is a text of its own: none hands a part of the path on
    of_paths = re.findall(r"^map [^{]*\$uri\b[^{]*\$(\w+) \{(.*?)^\}", text, re.M | re.S)
    named = {name for name, _ in of_paths}
    assert {"cpi_keep", "cpi_readers", "cpi_policy", "cpi_form"} & named
    for name, body in of_paths:
        if name != "cpi_said":  # (that one is for the log, which nginx writes in its own code)
            assert not re.search(r"\$(document_)?uri\b|\$\d|\?<", body), name
    assert "$cpi_said" not in re.sub(r"log_format cpi .*?;", "", text, flags=re.S).replace('$uri" $cpi_said {', "")
    # a regex that ends with `$` takes a path with a line's end for the one without
    ends = re.findall(r'^\s*"?~[*^].*\$"?\s', text, re.M)
    assert [line for line in ends if re.search(r"/(api|published|notes|collect|table)", line)] == []


def test_caddy_leads_to_fixed_addresses_only() -> None:
    """It encodes what stands in a field; yet no field and no address has a part of the path."""
    text = (ROOT / "ops/Caddyfile").read_text(encoding="utf-8")
    matches = re.findall(r"^\s*(redir|header|header_down)\b(.*)$", text, re.M)
    assert len(matches) > 10
    assert [match for match in matches if re.search(r"\{(uri|path|re\.|http\.request\.(orig_)?uri)", match[1])] == []
