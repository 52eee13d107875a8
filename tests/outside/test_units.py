"""The office as systemd runs it, in a system of its own that has this one's files: a start returns once the office
listens, a wrong setting ends it, what may pass is tried again, and a stop leaves one whole file. An office whose second
copy was promoted stops for good."""

from __future__ import annotations

import subprocess
from collections.abc import Callable
from pathlib import Path

from lib.places import ROOT

KEY = "0123456789abcdef0123456789abcdef"

# Boots a system whose changes lie in memory, with the package $2 and the commands $3, which run once it is up; then it
# ends, and what they printed is printed. Where systemd runs here, it is asked for the control group of that system.
BOOT = """
mount -t tmpfs tmpfs "$1"
mkdir "$1/changes" "$1/work" "$1/root"
mount -t overlay overlay -o "lowerdir=/,upperdir=$1/changes,workdir=$1/work" "$1/root"
cp "$2" "$1/root/root/cpi.deb"
cp "$3" "$1/root/root/commands"
cat > "$1/root/etc/systemd/system/trial.service" << END
[Unit]
Requires=basic.target
After=basic.target
SuccessAction=poweroff-force
FailureAction=poweroff-force
[Service]
Type=oneshot
WorkingDirectory=/root
StandardOutput=file:/root/told
StandardError=file:/root/errors
ExecStart=/bin/bash -eu /root/commands
END
words="--quiet --private-network --register=no --directory=$1/root"
[ -d /run/systemd/system ] || words="$words --keep-unit"
systemd-nspawn $words --boot systemd.unit=trial.service < /dev/null > "$1/console" 2>&1 || cat "$1/console" >&2
cat "$1/root/root/told"
cat "$1/root/root/errors" >&2
"""

COMMANDS = f"""
dpkg --no-triggers -i cpi.deb > /dev/null
key={KEY}
write_key() {{ (umask 077; echo "$key" > /etc/cpi/desk-key); }}
set_to() {{ sed -i "/^$1=/d" /etc/cpi/office.conf; echo "$1=$2" >> /etc/cpi/office.conf; }}
start() {{
  systemctl start cpi 2> /dev/null && echo "start: 0" || echo "start: $?"
}}
state() {{
  systemctl show cpi --property=ActiveState --property=NRestarts --value | sort | paste -sd ' '
}}
told() {{ journalctl --unit=cpi --output=cat | grep "$1" | tail -n 1; }}
ask() {{
  python3 -c 'import sys, urllib.request as web
request = web.Request("http://127.0.0.1:8080/" + sys.argv[1], sys.stdin.buffer.read() or None)
request.add_header("Authorization", "CPI-Key " + sys.argv[2])
print(web.urlopen(request).read().decode().strip())' "$1" "$key"
}}
await_active() {{ for _ in $(seq 100); do systemctl --quiet is-active cpi && break; sleep 0.1; done; }}
replay() {{ runuser -u cpi -- cpi replay --db /var/lib/cpi/office.db; }}

echo "# there is no key"
start; sleep 2; state; told '^cpi-serve: '
echo "# there is no zone"
write_key; start; sleep 2; state; told '^cpi-serve: ' | cut -d : -f 1-3
echo "# a zone that isn't one"
set_to CPI_ZONE Europe/Nowhere
start; sleep 2; state; told '^cpi-serve: ' | cut -d : -f 1-4
echo "# records before the first right start, and a place as zone"
set_to CPI_ZONE Europe/Prague
echo 0,desk,item,RICE,Rice,1 kg,500,2000 | replay
start; state; told '^cpi-serve: '
echo "# the key is in no list"
systemctl status cpi > status; grep -c "$key" status || true
cat /proc/[0-9]*/cmdline 2> /dev/null | tr '\\0' '\\n' | grep -c "^$key" || true
echo "# a stop leaves one whole file"
echo 'item,TEA,Tea,100 g,500,2000' | ask import
[ "$(stat -c %s /var/lib/cpi/office.db-wal)" -gt 41 ]
systemctl stop cpi; state; [ -e /var/lib/cpi/office.db-wal ] || echo no log
cp /var/lib/cpi/office.db alone.db; echo 9,public,items | cpi replay --db alone.db
echo "# after its connections it comes back"
set_to CPI_LIMIT 2
start; ask tables < /dev/null; ask tables < /dev/null; sleep 1; await_active; ask tables < /dev/null; state
systemctl stop cpi; set_to CPI_LIMIT 1000000
echo "# a taken port is tried again"
python3 -m http.server --bind 127.0.0.1 8080 > /dev/null 2>&1 & sleep 1
start; told '^cpi: '; kill $!; await_active; systemctl is-active cpi
echo "# after a kill too"
systemctl kill --signal=KILL cpi; sleep 1; await_active; ask items < /dev/null
echo "# another program was installed meanwhile"
echo 'item,OIL,Oil,1 l,500,2000' | ask import > /dev/null
cp /usr/bin/cpi other; echo >> other; mv other /usr/bin/cpi
systemctl stop cpi; [ -e /var/lib/cpi/office.db-wal ] || echo no log; told '^cpi-stopped: ' | grep -o 'copy .*'
echo "# the file of a later program isn't tried again"
replay < /dev/null
python3 -c 'import sqlite3
with sqlite3.connect("/var/lib/cpi/office.db") as file: file.execute("UPDATE version SET number = 9")'
start; sleep 4; state; told '^cpi-serve: ' | cut -d : -f 2
"""

WANTED = """\
# there is no key
start: 1
0 failed
cpi-serve: there is no file /etc/cpi/desk-key: wanted is the desk's key: \
(umask 077; openssl rand -hex 16 > /etc/cpi/desk-key)
# there is no zone
start: 1
0 failed
cpi-serve: /etc/cpi/office.conf: CPI_ZONE isn't set
# a zone that isn't one
start: 1
0 failed
cpi-serve: /etc/cpi/office.conf: CPI_ZONE is 'Europe/Nowhere': wanted is a place in /usr/share/zoneinfo \
such as Europe/Prague, or a rule such as CET-1CEST,M3.5.0,M10.5.0/3
# records before the first right start, and a place as zone
{"done":true}
start: 0
0 active
cpi-serve: CPI_ZONE is Europe/Prague, whose clock follows CET-1CEST,M3.5.0,M10.5.0/3
# the key is in no list
0
0
# a stop leaves one whole file
{"rows":[{"done":true}]}
0 inactive
no log
{"items":[["RICE","Rice","1 kg",500,2000],["TEA","Tea","100 g",500,2000]]}
# after its connections it comes back
start: 0
{"tables":[]}
{"tables":[]}
{"tables":[]}
1 active
# a taken port is tried again
start: 1
cpi: no port
active
# after a kill too
{"items":[["RICE","Rice","1 kg",500,2000],["TEA","Tea","100 g",500,2000]]}
# another program was installed meanwhile
no log
copy /var/lib/cpi/office.db before the next start, which may bring it to later tables
# the file of a later program isn't tried again
start: 1
1 failed
 /var/lib/cpi/office.db was written by a later version of cpi
"""


def booted(needed: Callable[[str], str], program: Path, folder: Path, commands: str) -> list[str]:
    """The lines that commands print in a booted system with the package in it."""
    for name in ("dpkg-deb", "systemd-nspawn"):
        needed(name)
    subprocess.run([ROOT / "tools/package", "--to", folder, "--program", program], capture_output=True, check=True)
    (package,) = folder.glob("*.deb")
    (folder / "commands").write_text(commands)
    (folder / "room").mkdir()
    words = [needed("unshare"), "--mount", "bash", "-euc", BOOT, "boot"]
    words += [str(folder / "room"), str(package), str(folder / "commands")]
    ran = subprocess.run(words, capture_output=True, text=True, check=False, timeout=300)
    assert ran.returncode == 0, ran.stderr
    return ran.stdout.splitlines()


def test_as_systemd_runs_it(needed: Callable[[str], str], program: Path, tmp_path: Path) -> None:
    """This asks for root, and for a system that lets it mount."""
    assert booted(needed, program, tmp_path, COMMANDS) == WANTED.splitlines()


SECOND = f"""
{COMMANDS[: COMMANDS.index('echo "# there is no key"')]}
follower() {{
  systemctl show cpi-follow --property=ActiveState --property=ExecMainStatus --value | sort | paste -sd ' '
}}
await() {{ for _ in $(seq 600); do "$@" && break; sleep 0.1; done; }}
has_two() {{ [ -e /srv/copy/copy-1/office.db.json ] && [ -e /srv/copy/copy-2/office.db.json ]; }}
is_stopped() {{ ! systemctl --quiet is-active cpi; }}
write_key; set_to CPI_ZONE Europe/Prague; set_to CPI_COPY_EVERY 1
echo "# no place is named"
systemctl start cpi-follow || true
await systemctl --quiet is-failed cpi-follow; follower
echo "# a place that is a folder of this machine"
install -d -m 700 -o cpi -g cpi /srv/copy
for unit in cpi-follow cpi-promoted; do
  mkdir "/etc/systemd/system/$unit.service.d"
  printf '[Service]\\nReadWritePaths=/srv/copy\\n' > "/etc/systemd/system/$unit.service.d/place.conf"
done
set_to CPI_COPY /srv/copy
systemctl daemon-reload; systemctl enable --quiet cpi-promoted
echo 0,desk,item,RICE,Rice,1 kg,500,2000 | replay
start; systemctl is-active cpi-promoted; systemctl start cpi-follow; await has_two; follower
echo "# the copy is promoted, and the office stops"
mkdir /srv/second; cpi-tools promote /srv/copy --office /srv/second/office.db | grep -c ' is the office now'
await is_stopped; sleep 1; state; follower
echo 9,public,items | cpi replay --db /srv/second/office.db
echo "# it doesn't start again"
start; told '^cpi-serve: ' | grep -o 'two offices.*(' || true
echo "# nor after a boot"
systemctl stop cpi-promoted; rm /var/lib/cpi/office.db.promoted
start; systemctl is-active cpi-promoted || true; ls /var/lib/cpi/office.db.promoted
"""

SECOND_WANTED = """\
# no place is named
78 failed
# a place that is a folder of this machine
{"done":true}
start: 0
active
0 active
# the copy is promoted, and the office stops
1
0 inactive
4 failed
{"items":[["RICE","Rice","1 kg",500,2000]]}
# it doesn't start again
start: 1
two offices that answer are worse than none, so this one doesn't start (
# nor after a boot
start: 1
failed
/var/lib/cpi/office.db.promoted
"""


def test_a_second_copy_as_systemd_keeps_it(needed: Callable[[str], str], program: Path, tmp_path: Path) -> None:
    """The units of the first machine, whose place is a folder here; nothing goes over a network."""
    assert booted(needed, program, tmp_path, SECOND) == SECOND_WANTED.splitlines()
