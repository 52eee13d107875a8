"""Slices of a pack: the newest month, headline figures, divisions, and files at paths that any file server answers.

`tests/test_national_example.py` computes each figure of them once more.
"""

from __future__ import annotations

import csv
import functools
import http.server
import io
import json
import threading
import urllib.error
import urllib.request
from collections.abc import Iterator
from pathlib import Path

import pytest

from cpi_tools.publish.figures.config import Config
from cpi_tools.office.public import Published
from cpi_tools.publish.figures.specials import Special
from cpi_tools.publish.pack import check, publish
from lib.pack_forms import Attributes, read_json_stat, read_sdmx_ml

SETS = (Special("FRUIT", "Fruit", ("01.1.6",)), Special("REST", "Without food", ("00",), ("01",)))
CONFIG = Config("NSO", "XX", "Office of prices", reference="2025", provisional=2, specials=SETS)
SERIES = ("FREQ", "REF_AREA", "MEASURE", "UNIT_MEASURE", "COICOP18", "TRANSFORMATION")


def quiet(_: str) -> None:
    pass


@pytest.fixture(scope="module")
def pack(published: list[Published], tmp_path_factory: pytest.TempPathFactory) -> Path:
    out = tmp_path_factory.mktemp("slices") / "public"
    publish(published, CONFIG, out, None, quiet)
    return out


def rows_of(path: Path) -> list[Attributes]:
    with path.open(encoding="utf-8", newline="") as file:
        return [*csv.DictReader(file)]


Observations = set[tuple[tuple[str, str], ...]]


def observed(rows: list[Attributes]) -> Observations:
    """Observations, each with what is said of it."""
    found = [tuple(sorted((name, value) for name, value in row.items() if value)) for row in rows]
    assert len({*found}) == len(found)
    return {*found}


def in_xml(path: Path) -> Observations:
    return observed([*read_sdmx_ml(path)])


@pytest.fixture(scope="module")
def whole(pack: Path) -> list[Attributes]:
    return [*read_sdmx_ml(pack / "data/cpi.sdmx.xml")]


# ---- parts


def test_all_slices_together_are_the_whole(pack: Path, whole: list[Attributes]) -> None:
    names = {path.name for path in (pack / "data/slices").iterdir()} - {"csv-metadata.json"}
    parts = ("headline", "aggregates", "01", "07", "08")
    assert names == {f"{part}.sdmx.{end}" for part in parts for end in ("csv", "xml")}
    together: Observations = set()
    for part in parts:
        observations = in_xml(pack / f"data/slices/{part}.sdmx.xml")
        rows = rows_of(pack / f"data/slices/{part}.sdmx.csv")
        plain = [{name: it for name, it in row.items() if name not in BEFORE} for row in rows]
        assert observed(plain) == observations and {row["ACTION"] for row in rows} == {"I"}
        together |= observations
    assert together == observed(whole) and len(together) > 3000


BEFORE = ("STRUCTURE", "STRUCTURE_ID", "ACTION")


def test_headline_has_all_items_and_divisions(pack: Path) -> None:
    rows = rows_of(pack / "data/slices/headline.sdmx.csv")
    assert {row["COICOP18"] for row in rows} == {"_T", "CP01", "CP07", "CP08"}
    assert {row["FREQ"] for row in rows} == {"M", "A"}
    assert {row["COICOP18"] for row in rows_of(pack / "data/slices/aggregates.sdmx.csv")} == {"FRUIT", "REST"}
    items = {row["COICOP18"] for row in rows_of(pack / "data/slices/08.sdmx.csv")}
    assert items == {"CP08", "CP081", "CP0811", "CP08111", "CP08111-01"}


def test_the_newest_month_is_in_each_form(pack: Path, whole: list[Attributes]) -> None:
    data, newest = pack / "data", pack / "data/newest"
    assert in_xml(newest / "cpi.sdmx.xml") == observed([row for row in whole if row["TIME_PERIOD"] == "2027-05"])
    for name in ("cpi.csv", "printed.csv", "contributions.csv", "aggregates.csv", "rereferenced.csv"):
        of_month = [row for row in rows_of(data / name) if row["month"] == "2027-05"]
        assert rows_of(newest / name) == of_month and of_month, name
    assert {row["provisional"] for row in rows_of(newest / "printed.csv")} == {"1"}
    cube, places = read_json_stat(newest / "cpi.jsonstat.json")
    every, all_places = read_json_stat(data / "cpi.jsonstat.json")
    assert {key[2] for key in places} == {"2027-05"} and {*cube["status"].values()} == {"p", "ip"}
    assert {key: cube["value"][at] for key, at in places.items()} == {
        key: every["value"][all_places[key]] for key in places
    }
    assert {"cpi.px", "cpi.xlsx"} < {path.name for path in newest.iterdir()}


# ---- paths


@pytest.fixture(scope="module")
def base(pack: Path) -> Iterator[str]:
    """The address of a file server of Python that knows nothing of the pack."""

    class Quiet(http.server.SimpleHTTPRequestHandler):
        def log_message(self, *_: object) -> None:
            pass

    server = http.server.ThreadingHTTPServer(("127.0.0.1", 0), functools.partial(Quiet, directory=str(pack)))
    threading.Thread(target=server.serve_forever, daemon=True).start()
    yield f"http://127.0.0.1:{server.server_port}/data"
    server.shutdown()
    server.server_close()


def asked(address: str) -> bytes:
    with urllib.request.urlopen(address, timeout=30) as reply:
        data: bytes = reply.read()
        return data


def test_a_client_asks_for_a_series_by_its_key(base: str, whole: list[Attributes]) -> None:
    """With the words of SDMX-REST behind the path, which a file server leaves alone."""
    for key in ("M.XX.CPI.IX.CP0112.N", "M.XX.CPI.IX.CP01162-01.N", "M.XX.CPI.PC._T.GY", "A.XX.CPI.IX.REST.N",
                "M.XX.CTR.PP.CP07.G1"):  # fmt: skip
        wanted = [row for row in whole if ".".join(row[name] for name in SERIES) == key]
        if not wanted:
            with pytest.raises(urllib.error.HTTPError, match="404"):
                asked(f"{base}/sdmx/data/DF_CPI/{key}")
            continue
        found = asked(f"{base}/sdmx/data/DF_CPI/{key}?startPeriod=2025-01")
        assert observed([*read_sdmx_ml(io.BytesIO(found))]) == observed(wanted)


def test_the_paths_are_the_index_of_each_item_and_all_series_of_headline_figures(
    pack: Path, whole: list[Attributes]
) -> None:
    headline = {"_T", "CP01", "CP07", "CP08", "FRUIT", "REST"}
    wanted = {
        ".".join(row[name] for name in SERIES)
        for row in whole
        if row["COICOP18"] in headline or (row["FREQ"], row["MEASURE"], row["TRANSFORMATION"]) == ("M", "CPI", "N")
    }
    paths = [*(pack / "data/sdmx/data/DF_CPI").iterdir()]
    assert {path.name for path in paths} == wanted and len(wanted) > 60
    for path in paths:
        assert {".".join(row[name] for name in SERIES) for row in read_sdmx_ml(path)} == {path.name}


def test_the_structure_is_where_clients_look_for_it(pack: Path, base: str) -> None:
    wanted = (pack / "data/structure.sdmx.xml").read_bytes()
    for path in ("dataflow/NSO/DF_CPI/latest", "datastructure/NSO/DSD_CPI/latest?references=children"):
        assert asked(f"{base}/sdmx/{path}") == wanted


def test_ids_of_messages_differ(pack: Path) -> None:
    """As far as a part of all isn't the whole."""
    names = ("data/cpi.sdmx.xml", "data/slices/01.sdmx.xml", "data/sdmx/data/DF_CPI/M.XX.CPI.IX._T.N")
    ids = [(pack / name).read_text("utf-8").partition("<message:ID>")[2].partition("<")[0] for name in names]
    assert ids == ["DF_CPI_2027-05", "DF_CPI_2027-05_01", "DF_CPI_2027-05_M_XX_CPI_IX__T_N"]


def test_each_item_has_its_cube(pack: Path, base: str) -> None:
    every, all_places = read_json_stat(pack / "data/cpi.jsonstat.json")
    collection = json.loads(asked(f"{base}/json-stat/index.json"))
    assert (collection["version"], collection["class"]) == ("2.0", "collection")
    codes = []
    for it in collection["link"]["item"]:
        (tmp := pack.parent / "asked.json").write_bytes(asked(f"{base}/json-stat/{it['href']}"))
        cube, places = read_json_stat(tmp)
        (code,) = cube["dimension"]["item"]["category"]["index"]
        assert (it["class"], it["href"], cube["class"]) == ("dataset", f"{code}.json", "dataset")
        for key, at in places.items():
            place = all_places[key]
            assert cube["value"][at] == every["value"][place]
            assert cube["status"].get(str(at)) == every["status"].get(str(place))
        codes.append(code)
    assert codes == every["dimension"]["item"]["category"]["index"]
    assert cube["dimension"]["item"]["category"]["child"] == {}


def test_the_collection_has_whole_addresses_if_the_office_names_its_own(
    published: list[Published], tmp_path: Path
) -> None:
    config = CONFIG._replace(address="https://prices.example/")
    publish(published, config._replace(without=frozenset({"pictures"})), tmp_path / "public", None, quiet)
    first = json.loads((tmp_path / "public/data/json-stat/index.json").read_bytes())["link"]["item"][0]
    assert first["href"] == "https://prices.example/data/json-stat/00.json" and first["label"] == "00 All items"


# ---- the pack


def test_sums_have_the_slices_and_check_makes_them_again(published: list[Published], pack: Path) -> None:
    sums = (pack / "SHA256SUMS").read_text(encoding="utf-8")
    for name in ("data/newest/cpi.px", "data/slices/01.sdmx.csv", "data/sdmx/data/DF_CPI/M.XX.CPI.IX._T.N",
                 "data/sdmx/dataflow/NSO/DF_CPI/latest", "data/json-stat/01.1.json"):  # fmt: skip
        assert f"  {name}\n" in sums
    assert check(published, CONFIG, pack, None, quiet) == []


def test_the_next_month_is_as_if_the_pack_were_made_from_nothing(published: list[Published], tmp_path: Path) -> None:
    out = tmp_path / "public"
    publish(
        [publication for publication in published if publication.listed.month < "2027-05"], CONFIG, out, None, quiet
    )
    publish(published, CONFIG, out, None, quiet)
    publish(published, CONFIG, tmp_path / "new", None, quiet)
    for folder in ("newest", "slices", "json-stat"):
        for path in sorted((tmp_path / "new/data" / folder).iterdir()):
            # (the version of the structure follows that of the pack before)
            if "sdmx" not in path.name:
                assert (out / "data" / folder / path.name).read_bytes() == path.read_bytes(), path


@pytest.mark.parametrize(
    ("without", "there"),
    [
        (("slices",), set()),
        (("sdmx-csv", "sdmx-ml"), {"newest", "json-stat"}),
        (("sdmx-ml",), {"newest", "json-stat", "slices"}),
        (("json-stat",), {"newest", "slices", "sdmx"}),
    ],
)
def test_an_office_may_be_without_them(
    published: list[Published], tmp_path: Path, without: tuple[str, ...], there: set[str]
) -> None:
    config = CONFIG._replace(without=frozenset({*without, "pictures"}))
    publish(published[:14], config, tmp_path / "public", None, quiet)
    names = {path.name for path in (tmp_path / "public/data").iterdir() if path.is_dir()}
    assert names - {"tables"} == there
    page = (tmp_path / "public/data.html").read_text(encoding="utf-8")
    assert ("newest/cpi.csv" in page) == ("newest" in there)
    assert ("data/sdmx/data/DF_CPI/M.XX.CPI.IX._T.N" in page) == ("sdmx" in there)
