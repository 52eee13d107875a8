"""When a certificate ends, beside openssl; and what the kernel says of the clock."""

from __future__ import annotations

import calendar
import subprocess
import time
from pathlib import Path

import pytest

from cpi_tools.guard.watch.probe_looks import (
    Certificate,
    MachineClock,
    Place,
    Server,
    certificate_at,
    machine_clock,
    place,
    timex,
)
from cpi_tools.text.terminal import Fault
from lib.served import free_port
from .needs import needed
from .test_probe import answering

KINDS = {
    "rsa": ["-newkey", "rsa:2048"],
    "ec": ["-newkey", "ec", "-pkeyopt", "ec_paramgen_curve:prime256v1"],
    "ed25519": ["-newkey", "ed25519"],
}


def made(path: Path, kind: str, days: int) -> Path:
    """A certificate that openssl makes, and its key after it."""
    key = path.with_suffix(".key")
    words = [needed("openssl"), "req", "-x509", *KINDS[kind], "-nodes", "-days", str(days), "-subj", "/O=Ä/CN=x"]
    subprocess.run([*words, "-utf8", "-keyout", str(key), "-out", str(path)], capture_output=True, check=True)
    path.write_text(path.read_text() + key.read_text())
    return path


def end_by_openssl(path: Path) -> int:
    words = [needed("openssl"), "x509", "-enddate", "-noout", "-in", str(path)]
    told = subprocess.run(words, capture_output=True, text=True, check=True).stdout.strip()
    return calendar.timegm(time.strptime(told, "notAfter=%b %d %H:%M:%S %Y GMT"))


@pytest.mark.parametrize(("kind", "days"), [("rsa", 2), ("ec", 90), ("ed25519", 20_000)])
def test_the_end_of_a_certificate_is_that_of_openssl(kind: str, days: int, tmp_path: Path) -> None:
    """That of 20,000 days is written with a year of four digits."""
    path = made(tmp_path / "cert.pem", kind, days)
    certificate = certificate_at(path, 1)
    assert certificate == Certificate(str(path), end_by_openssl(path))
    assert abs(certificate.ends - time.time() - days * 86_400) < 300


def test_of_several_in_a_file_the_first_end_counts(tmp_path: Path) -> None:
    later, sooner = made(tmp_path / "a.pem", "ec", 9), made(tmp_path / "b.pem", "ec", 3)
    later.write_text(later.read_text() + sooner.read_text())
    assert certificate_at(later, 1).ends == end_by_openssl(sooner)


def test_a_server_shows_its_certificate_trusted_or_not(tmp_path: Path) -> None:
    path = made(tmp_path / "cert.pem", "rsa", 5)
    with answering(b"", certificate=path) as url:
        port = int(url.rpartition(":")[2])
        assert certificate_at(Server("127.0.0.1", port), 9) == Certificate(f"127.0.0.1:{port}", end_by_openssl(path))


def test_what_shows_no_certificate_is_told(tmp_path: Path) -> None:
    port, text, cut = free_port(), tmp_path / "text", tmp_path / "cut.pem"
    text.write_text("-----BEGIN CERTIFICATE-----\nMAA=\n-----END CERTIFICATE-----\n")
    lines = made(cut, "rsa", 5).read_text().splitlines()
    cut.write_text("\n".join([*lines[:4], "-----END CERTIFICATE-----"]))
    places: list[tuple[Place, str]] = [
        (Server("127.0.0.1", port), f"127.0.0.1:{port} shows no certificate: .*refused"),
        (tmp_path / "none", "none: No such file"),
        (text, "text has no certificate that can be read"),
        (cut, "cut.pem has no certificate that can be read"),
    ]
    for where, told in places:
        with pytest.raises(Fault, match=told):
            certificate_at(where, 1)
    with answering(b"") as url, pytest.raises(Fault, match="shows no certificate"):
        certificate_at(Server("127.0.0.1", int(url.rpartition(":")[2])), 1)


def test_a_place_is_a_server_or_a_file() -> None:
    assert place("localhost:443") == Server("localhost", 443)
    assert place("[::1]:8443") == Server("::1", 8443)
    for text in ("cert.pem", "/etc/ssl/cert.pem", "./cert:443", "/x:443"):
        assert place(text) == Path(text)


def test_the_kernel_says_whether_the_clock_is_synchronized() -> None:
    """Its answer has the time too: so the fields are where the kernel puts them."""
    found = timex()
    assert abs(found.seconds - time.time()) < 5 and found.tick in range(9000, 11_001)
    assert machine_clock().error >= 0
    assert [MachineClock(error).is_synchronized for error in (0, 15_999_999, 16_000_000)] == [True, True, False]
