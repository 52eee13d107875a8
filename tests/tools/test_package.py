"""`tools/package`: the package has what the repository has, is installed in a root of its own, and starts nothing; its
pages of the manual say the words of the programs."""

from __future__ import annotations

import hashlib
import os
import re
import shutil
import subprocess
import tarfile
import time
from collections.abc import Iterator
from pathlib import Path

import pytest

import cpi_tools
from cpi_tools.office.program import Cpi
from lib.places import ROOT
from lighter import PATTERNS, lighten
from .needs import needed
from .packages import epoch_of, made_package
from .test_ops import UNITS

pytestmark = pytest.mark.xdist_group("package")

INPUTS = ["tools", "docs", "ops", "web", "po", "examples", "dist", "README.md", "LICENSE", "CHANGELOG.md", "THIRD-PARTY.md",
          "SECURITY.md", "CONTRIBUTING.md", "crates.txt"]  # fmt: skip
"""All that a package is made of."""


@pytest.fixture(scope="module")
def members(package: Path, tmp_path_factory: pytest.TempPathFactory) -> dict[str, tarfile.TarInfo]:
    """What the package puts below /, by name."""
    whole = tmp_path_factory.mktemp("members") / "data.tar"
    with whole.open("wb") as file:
        subprocess.run(["dpkg-deb", "--fsys-tarfile", package], stdout=file, check=True)
    with tarfile.open(whole) as tar:
        return {member.name[2:]: member for member in tar if member.name != "."}


def dpkg(root: Path, *words: object) -> str:
    """What dpkg tells over a system of its own, in which nothing else is installed; nobody is there to be asked."""
    for name in ("info", "updates", "triggers"):
        (root / "var/lib/dpkg" / name).mkdir(parents=True, exist_ok=True)
    (root / "var/lib/dpkg/status").touch()
    quiet = ["--log=/dev/null", "--path-include=/*", "--force-script-chrootless", "--force-depends"]
    quiet += ["--force-not-root", "--force-bad-path"]
    told = {"stdin": subprocess.DEVNULL, "stdout": subprocess.PIPE, "stderr": subprocess.STDOUT, "text": True}
    called = ["dpkg", f"--root={root}", *quiet, *map(str, words)]
    ran = subprocess.run(called, check=False, **told)  # type: ignore[call-overload]
    assert ran.returncode == 0, ran.stdout
    return str(ran.stdout)


@pytest.fixture(scope="module")
def installed(package: Path, tmp_path_factory: pytest.TempPathFactory) -> Iterator[Path]:
    """A root of its own, in which the package is installed."""
    if os.geteuid() != 0:
        pytest.skip("dpkg --root asks for root")
    root = tmp_path_factory.mktemp("root")
    dpkg(root, "--install", package)
    yield root


def in_root(root: Path, commands: str, folder: Path) -> str:
    """What commands print in a folder, where the programs of a root come first on the path and nothing names others."""
    kept = {"PATH": f"{root}/usr/bin:/usr/bin:/bin", "HOME": str(folder)}
    ran = subprocess.run(["bash", "-ec", commands], cwd=folder, env=kept, capture_output=True, text=True, check=False)
    assert (ran.returncode, ran.stderr) == (0, "")
    return ran.stdout


# ---- what is in it


def copied_inputs(to: Path) -> None:
    """Puts what a package is made of into another folder."""
    for name in INPUTS:
        copied = shutil.copytree if (ROOT / name).is_dir() else shutil.copy
        copied(ROOT / name, to / name)  # type: ignore[operator]


def test_the_same_inputs_give_the_same_bytes(package: Path, cpi: Cpi, tmp_path: Path) -> None:
    """A copy of the repository elsewhere, of another time, by a user with another mask, clock and language."""
    (tmp_path / "there").mkdir()
    copied_inputs(tmp_path / "there")
    for path in (tmp_path / "there").rglob("*"):
        path.chmod(0o700 if path.is_dir() or path.stat().st_mode & 0o100 else 0o600)
        os.utime(path, (1_000_000_000,) * 2)
    before = os.umask(0o077)
    try:
        again = made_package(tmp_path / "there", tmp_path / "to", cpi, TZ="Asia/Tokyo", LC_ALL="C", LANG="de_DE.UTF-8")
    finally:
        os.umask(before)
    assert again.name == package.name
    for name in os.listdir(package.parent):
        assert (again.parent / name).read_bytes() == (package.parent / name).read_bytes(), name


def test_each_file_has_the_time_of_its_version_and_belongs_to_root(members: dict[str, tarfile.TarInfo]) -> None:
    assert {member.mtime for member in members.values()} == {epoch_of(ROOT)}
    assert {(member.uid, member.gid) for member in members.values()} == {(0, 0)}
    modes = {name: member.mode for name, member in members.items()}
    assert {modes[f"usr/{name}"] for name in ("bin/cpi", "bin/cpi-tools", "lib/cpi/cpi-serve")} == {0o755}
    assert {modes[name] for name in ("etc/cpi/config.js", "usr/share/doc/cpi/README.md")} == {0o644}


def test_whole_folders_are_in_it(members: dict[str, tarfile.TarInfo]) -> None:
    """Each file of them that git knows is there, whatever its kind."""
    listed = subprocess.run(["git", "ls-files", "-z", "tools/cpi_tools", "examples"], cwd=ROOT, capture_output=True)
    if listed.returncode:
        pytest.skip("git doesn't know the repository")
    wanted = {f"usr/share/cpi/{name}" for name in listed.stdout.decode().split("\0") if name}
    assert "usr/share/cpi/tools/cpi_tools/guard/backup.py" in wanted
    assert wanted - set(members) == set()
    pages = {f"usr/share/doc/cpi/{path.relative_to(ROOT)}" for path in (ROOT / "docs").rglob("*.md")}
    assert pages - set(members) == set()
    assert [name for name in members if "__pycache__" in name or name.endswith((".pyc", ".db"))] == []


def test_each_file_of_ops_has_its_place(members: dict[str, tarfile.TarInfo]) -> None:
    places = {path.name: {str(Path(name).parent) for name in members if Path(name).name == path.name}
              for path in (ROOT / "ops").iterdir() if path.suffix not in (".sysusers", ".tmpfiles")}  # fmt: skip
    units, programs, others = {"usr/lib/systemd/system"}, {"usr/lib/cpi"}, {"usr/share/cpi/ops"}
    assert places == {
        "cpi.service": units, "cpi-backup.service": units, "cpi-backup.timer": units, "cpi-serve": programs,
        "cpi-follow.service": units, "cpi-promoted.service": units, "cpi-follow": programs, "cpi-receive": programs,
        "cpi-desk.service": units, "cpi-desk": programs, "cpi-keep.service": units, "cpi-keep.timer": units,
        "cpi-keep": programs,
        "cpi-backup": programs, "cpi-stopped": programs, "nginx.conf": others, "Caddyfile": others, "logrotate-cpi": others,
        "try": others, "try.py": others, "sshd-cpi.conf": others, "office.conf": others,
    }  # fmt: skip
    tables = {"usr/lib/sysusers.d/cpi.conf", "usr/lib/tmpfiles.d/cpi.conf", "usr/lib/tmpfiles.d/cpi-desk.conf"}
    assert tables <= set(members)


def test_the_pages_are_there_as_they_stand(members: dict[str, tarfile.TarInfo]) -> None:
    wanted = {str(path.relative_to(ROOT)) for path in (ROOT / "web").rglob("*") if path.is_file()}
    matching_members = {
        name.removeprefix("usr/share/cpi/") for name in members if name.startswith("usr/share/cpi/web/")
    }
    assert {name for name in matching_members if not members[f"usr/share/cpi/{name}"].isdir()} == wanted
    # (what an office sets is a setting of its own, and the pages find it)
    assert members["usr/share/cpi/web/config.js"].linkname == "/etc/cpi/config.js"
    assert members["etc/cpi/config.js"].size == (ROOT / "web/config.js").stat().st_size


def test_scripts_styles_and_pages_have_no_comments(package: Path, tmp_path: Path) -> None:
    """So a phone loads less; what an office sets keeps the words that explain it."""
    subprocess.run(["dpkg-deb", "--extract", package, tmp_path], check=True)
    for path in sorted(path for path in (ROOT / "web").rglob("*") if path.is_file() and path.name != "config.js"):
        packed = (tmp_path / "usr/share/cpi" / path.relative_to(ROOT)).read_bytes()
        own = path.read_bytes()
        assert packed == (lighten(path.name, own.decode()).encode() if path.suffix in PATTERNS else own), path
    assert (tmp_path / "etc/cpi/config.js").read_bytes() == (ROOT / "web/config.js").read_bytes()


def test_nothing_is_started_by_it(package: Path, members: dict[str, tarfile.TarInfo], tmp_path: Path) -> None:
    assert [name for name in members if ".wants" in name or ".requires" in name] == []
    subprocess.run(["dpkg-deb", "--control", package, tmp_path / "told"], check=True)
    scripts = ["postinst", "postrm", "preinst", "prerm"]
    assert sorted(os.listdir(tmp_path / "told")) == ["conffiles", "control", "md5sums", *scripts]
    assert (tmp_path / "told/conffiles").read_text() == "/etc/cpi/config.js\n"
    texts = [(tmp_path / "told" / name).read_text() for name in scripts]
    asked = {called for text in texts for called in re.findall(r"(?<!-v )\b(?:deb-)?systemd?(?:ctl|-\w+) .*", text)}
    root = '${DPKG_ROOT:+--root="$DPKG_ROOT"}'
    assert asked == {
        f"systemd-sysusers {root} cpi.conf",
        f"systemd-tmpfiles {root} --create cpi.conf cpi-desk.conf || true",
        "systemctl --system daemon-reload",
        "systemctl --quiet is-active cpi.service; then",
        "systemctl --quiet is-active $service; then",
        'systemctl restart$others"',
        "deb-systemd-invoke stop cpi-backup.timer cpi-keep.timer cpi-follow.service cpi-desk.service cpi.service",
    }
    needs = re.findall(r"^(?:Depends|Recommends|Suggests): (.*)$", (tmp_path / "told/control").read_text(), re.M)
    assert needs == [
        "libc6 (>= 2.34), python3 (>= 3.9)",
        "python3-jinja2, python3-segno, python3-babel, python3-markdown-it, python3-flask, python3-waitress, python3-pil, borgbackup",
        "python3-openpyxl, python3-tomli, libreoffice-calc-nogui, openssh-client, rsync, rclone, librsvg2-bin, fonts-dejavu-core, weasyprint, r-base-core",
    ]


def test_the_versions_are_one(package: Path, cpi: Cpi) -> None:
    """CHANGELOG.md, the program, the companions and the package have the same number: `1.0`, or `1.1-dev` before it."""
    heading = r"^## (?:(\d[\d.]*), |Unreleased \((\d[\d.]*)\)$)"
    number, following = re.findall(heading, (ROOT / "CHANGELOG.md").read_text(), re.M)[0]
    named = number or f"{following}-dev"
    day = time.strftime("%Y%m%d", time.gmtime(epoch_of(ROOT)))
    assert package.name == f"cpi_{number or f'{following}~{day}'}_amd64.deb"
    assert cpi_tools.VERSION == named
    assert 'version = { attr = "cpi_tools.VERSION" }' in (ROOT / "tools/pyproject.toml").read_text()
    ran = subprocess.run([cpi.path, "--version"], capture_output=True, text=True, check=False)
    assert (ran.returncode, ran.stdout, ran.stderr) == (0, f"cpi {named}\n", "")


def test_only_the_latest_package_stays_in_out(cpi: Cpi, tmp_path: Path) -> None:
    """So that its name there can be written with a star."""
    copied_inputs(tmp_path)
    earlier, other = (tmp_path / "out" / name for name in ("cpi_1.0_amd64.deb", "other.deb"))
    earlier.parent.mkdir()
    for path in (earlier, other):
        path.write_text("made before")
    words = [str(tmp_path / "tools/package"), "--program", str(cpi.path)]
    kept = {**os.environ, "SOURCE_DATE_EPOCH": str(epoch_of(ROOT))}
    subprocess.run(words, env=kept, capture_output=True, check=True)
    assert other.exists() and not earlier.exists()
    assert len(list(earlier.parent.glob("cpi_*.deb"))) == 1


def test_without_git_the_day_has_to_be_told(cpi: Cpi, tmp_path: Path) -> None:
    copied_inputs(tmp_path)
    if not re.search(r"^## Unreleased", (tmp_path / "CHANGELOG.md").read_text(), re.M):
        pytest.skip("this is a release, whose day is known")
    kept = {name: value for name, value in os.environ.items() if name != "SOURCE_DATE_EPOCH"}
    words = [str(tmp_path / "tools/package"), "--to", str(tmp_path / "to"), "--program", str(cpi.path)]
    ran = subprocess.run(words, env=kept, capture_output=True, text=True, check=False)
    assert ran.returncode == 1
    assert re.fullmatch(r"tools/package: [\d.]+ isn't released, and without git SOURCE_DATE_EPOCH [^\n]*\n", ran.stderr)


# ---- the notices of third parties


def content(package: Path, name: str) -> str:
    """The text of a file of the package."""
    words = ["bash", "-ec", 'dpkg-deb --fsys-tarfile "$1" | tar -x -O "./$2"', "content", str(package), name]
    return subprocess.run(words, capture_output=True, text=True, check=True).stdout


def works() -> dict[str, str]:
    """What THIRD-PARTY.md says of each work."""
    part = (ROOT / "THIRD-PARTY.md").read_text().partition("\n## Works\n")[2].partition("\n## Licenses\n")[0]
    pieces = part.split("\n### ")[1:]
    return {name: said for name, _, said in (piece.partition("\n") for piece in pieces)}


def test_the_notices_are_in_it(package: Path) -> None:
    assert content(package, "usr/share/doc/cpi/THIRD-PARTY.md") == (ROOT / "THIRD-PARTY.md").read_text()
    told = content(package, "usr/share/doc/cpi/copyright")
    paragraphs = [paragraph.splitlines() for paragraph in told.rstrip("\n").split("\n\n")]
    assert [lines[0].partition(":")[0] for lines in paragraphs[:3]] == ["Format", "Files", "Files"]
    of_program = "\n".join(paragraphs[2])
    assert "Files: usr/bin/cpi\n" in of_program and len(works()) > 20
    for name, said in works().items():
        assert f"\n {name}: {' '.join(said.replace('`', '').split()[:3])}" in of_program
        holders = [re.sub(r"^(\(c\)|©|:) ", "", holder) for holder in re.findall("^- Copyright ?(.*)$", said, re.M)]
        assert holders and [holder for holder in holders if f"\n {holder} ({name})\n" not in of_program] == []
    licenses = re.findall(r"^License: (.*)$", of_program, re.M)[0].split(" and ")
    assert {lines[0] for lines in paragraphs[3:]} == {f"License: {name}" for name in licenses}
    assert "License: Expat" in told and "COPYRIGHT HOLDERS BE LIABLE" in told


def test_each_library_in_the_program_has_its_notice(cpi: Cpi) -> None:
    """A function's name in the program begins with its library's. (One letter can be chance.)"""
    names = re.findall(rb"\0([a-z][a-z0-9_]+)(?:::|\+\+)", cpi.path.read_bytes())
    texts = {name.decode() for name in names}
    if not texts:
        pytest.skip("the program has no names of functions")
    listed = {name for said in works().values() for line in re.findall("^- Crates: .*$", said, re.M)
              for name in re.findall(r"`(\w+)`", line)}  # fmt: skip
    assert {"clap", "cpi_office", "sqlite"} <= texts
    assert {name for name in texts if not re.fullmatch("cpi(_.*)?", name)} - listed == set()


def test_nothing_is_made_without_a_notice(cpi: Cpi, tmp_path: Path) -> None:
    copied_inputs(tmp_path)
    with (tmp_path / "crates.txt").open("a") as file:
        file.write("cpi_more: cpi_rows far_library\n")
    words = [str(path) for path in (tmp_path / "tools/package", "--to", tmp_path / "to", "--program", cpi.path)]
    ran = subprocess.run(words, capture_output=True, text=True, check=False)
    told = r"tools/package: THIRD-PARTY\.md has no entry for the crate far_library, [^\n]*\n"
    assert ran.returncode == 1 and re.fullmatch(told, ran.stderr)
    assert not (tmp_path / "to").exists()


# ---- where it is installed


def test_readmes_example_runs_where_it_is_installed(installed: Path) -> None:
    readme = (installed / "usr/share/doc/cpi/README.md").read_text()
    commands, wanted = re.findall(r"^```sh\n(\./cpi .*?)^```\n```text\n(.*?)^```\n", readme, re.S | re.M)[0]
    assert '{"receipt":2}' in wanted
    assert in_root(installed, commands, installed / "usr/share/cpi") == wanted
    assert in_root(installed, re.sub(r"(?m)^\./", "", commands), installed / "usr/share/cpi") == wanted


def test_the_companions_run_where_they_are_installed(installed: Path, tmp_path: Path) -> None:
    told = in_root(
        installed,
        f"cpi replay --db office.db < {installed}/usr/share/cpi/examples/table.csv > replies.txt\n"
        "cpi-tools backup office.db backup/office.db\ncpi-tools drill backup/office.db",
        tmp_path,
    )
    assert "backup/office.db: nothing is wrong; 3 tables with 16 rows and 6 carried prices computed" in told
    assert [path for path in installed.rglob("__pycache__")] == []


def test_the_examples_find_the_program_where_they_are_installed(installed: Path, tmp_path: Path) -> None:
    told = in_root(installed, f"{installed}/usr/share/cpi/examples/isolation --out there", tmp_path)
    assert "before January's table is out: the same bytes (28 lines)\n" in told
    assert sorted(os.listdir(tmp_path / "there")) == ["one", "two"]


def test_the_companions_tell_whether_the_program_is_the_shipped_one(installed: Path, tmp_path: Path) -> None:
    program, made = installed / "usr/bin/cpi", (ROOT / "dist/MADE").read_text()
    assert (installed / "usr/share/cpi/dist/MADE").read_text() == made
    found = hashlib.sha256(program.read_bytes()).hexdigest()
    is_shipped = f"program: {found}\n" in made
    told = in_root(installed, "cpi-tools --version", tmp_path).splitlines()
    assert told[0] == f"cpi-tools {cpi_tools.VERSION}"
    assert {"sources", "kit", "program"} == {line.partition(":")[0] for line in told[1:4]}
    assert [line for line in told[1:4] if line not in made.splitlines()] == []
    ending = "which is that program" if is_shipped else f"another program: {found}"
    assert told[4:] == [f"runs: {installed}/usr/share/cpi/cpi, {ending}"]
    program.write_bytes(program.read_bytes() + b"more")
    assert (
        in_root(installed, "cpi-tools --version", tmp_path)
        .splitlines()[-1]
        .endswith(f"another program: {hashlib.sha256(program.read_bytes()).hexdigest()}")
    )
    program.write_bytes(program.read_bytes()[:-4])


@pytest.mark.parametrize("name", ["examples/national/run", "examples/national/report", "ops/try"])
def test_an_example_that_is_installed_writes_to_the_users_cache(installed: Path, name: str, tmp_path: Path) -> None:
    """The folder of the package belongs to root. In the repository they write where they always did."""
    folder = "out/try" if name == "ops/try" else "examples/national/out"
    helps = in_root(installed, f"COLUMNS=300 {installed}/usr/share/cpi/{name} --help", tmp_path)
    assert f"({tmp_path}/.cache/sabrethog/{folder})\n" in helps
    assert f"({ROOT}/{folder})\n" in in_root(installed, f"COLUMNS=300 {ROOT}/{name} --help", tmp_path)


def test_an_example_that_cant_write_says_so_in_a_line(installed: Path, tmp_path: Path) -> None:
    words = [f"{installed}/usr/share/cpi/examples/national/run", "--out", "/dev/null/there"]
    ran = subprocess.run(words, capture_output=True, text=True, check=False)
    assert (ran.returncode, ran.stdout, ran.stderr.count("\n")) == (1, "", 1)
    assert ran.stderr.startswith("examples/national/run: /dev/null/there") and "--out" in ran.stderr


def test_the_users_of_the_office_and_of_its_generations_are_made(installed: Path) -> None:
    needed("systemd-sysusers")
    users = (installed / "etc/passwd").read_text()
    assert re.search(r"^cpi:x:\d+:\d+:Price index office:/var/lib/cpi:", users, re.M)
    assert re.search(r"^cpi-keep:x:\d+:\d+:Price index office, its generations:/var/lib/cpi-keep:", users, re.M)


def test_it_goes_as_it_came(installed: Path, package: Path, tmp_path: Path) -> None:
    """What it made for itself goes, and that its units are enabled; the settings stay until they are purged."""
    dpkg(tmp_path, "--install", package)
    wants = [f"multi-user.target.wants/{UNITS[0]}", f"timers.target.wants/{UNITS[2]}"]
    wants += [f"multi-user.target.wants/{UNITS[3]}", f"cpi.service.requires/{UNITS[4]}"]
    wants += [f"timers.target.wants/{UNITS[7]}"]
    for want in wants:
        enabled = tmp_path / "etc/systemd/system" / want
        enabled.parent.mkdir(parents=True, exist_ok=True)
        enabled.symlink_to(f"/lib/systemd/system/{enabled.name}")
    dpkg(tmp_path, "--remove", "cpi")
    assert [path for path in tmp_path.rglob("*") if path.is_symlink()] == []
    left = {str(path.relative_to(tmp_path)) for path in tmp_path.rglob("*") if path.is_file()}
    assert "etc/cpi/office.conf" in left and not any(name.startswith("usr/") for name in left)
    dpkg(tmp_path, "--purge", "cpi")
    assert not (tmp_path / "etc/cpi").exists() and not (tmp_path / "usr").exists()


# ---- its pages of the manual


def page(name: str, root: Path) -> str:
    """A page as it is read; a warning of it fails."""
    words = [needed("man"), "--warnings", "-l", str(root / f"usr/share/man/man1/{name}.1.gz")]
    kept = {**os.environ, "MANWIDTH": "100", "LC_ALL": "C.UTF-8", "MAN_KEEP_FORMATTING": ""}
    ran = subprocess.run(words, capture_output=True, text=True, check=False, env=kept)
    assert (ran.returncode, ran.stderr) == (0, "")
    return ran.stdout


def options(text: str) -> set[str]:
    return set(re.findall(r"(?<![\w-])--[a-z][a-z-]+", text))


def helps(cpi: Cpi) -> str:
    """All that the program says of its words."""
    words = ([str(cpi.path), *command, "--help"] for command in ((), ("replay",), ("serve",), ("table",)))
    return "".join(subprocess.run(word, capture_output=True, text=True, check=True).stdout for word in words)


def test_the_page_of_cpi_has_its_words_and_faults(cpi: Cpi, installed: Path) -> None:
    told, text = helps(cpi), page("cpi", installed)
    # (those of systemctl are in the notes)
    assert options(text) - {"--now"} == options(told)
    listed = [" ".join(each.split()) for each in re.findall(r"followed by (.*?)(?:;|\n  2 )", told, re.S)]
    faults = {fault for each in listed for fault in re.split(", | or ", re.sub(r" \([^)]*\)", "", each))}
    assert {"bad zone", "no clock", "no table"} <= faults
    page_faults = set(re.findall(r"^       ([a-z]+ [a-z]+(?: [a-z]+)?)$", text.partition("DIAGNOSTICS")[2], re.M))
    assert page_faults == faults


def test_each_tool_has_its_page_and_its_line(installed: Path) -> None:
    head = page("cpi-tools", installed)
    tools = re.findall(r"^ +cpi-tools-([a-z-]+)\(1\)$", head, re.M)
    told = subprocess.run([ROOT / "cpi-tools", "--help"], capture_output=True, text=True, check=True).stdout
    assert {"backup", "drill", "probe"} <= set(tools)
    assert [name for name in tools if not re.search(rf"^ +{name}\b", told, re.M)] == []
    for name in tools:
        said = subprocess.run([ROOT / "cpi-tools", name, "--help"], capture_output=True, text=True, check=True).stdout
        text = page(f"cpi-tools-{name}", installed)
        assert options(said) - options(text) == set()
        examples = re.search(r"^EXAMPLES\n((?: .*\n)+)", text, re.M)
        assert examples and re.fullmatch(rf"(       cpi-tools {name} .*\n)+", examples[1]), text
        assert "\nEXIT STATUS\n" in text
