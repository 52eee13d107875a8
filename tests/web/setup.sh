#!/usr/bin/env bash
# Installs what the tests of the pages need, of Debian: Chromium with its driver, Selenium, pytest, jinja2, babel, flask
# and waitress for /usr/bin/python3, nginx, certutil, which makes Chromium trust the tests' own certificate, and pdftotext,
# which reads what Chromium prints. If all is there already nothing is done.
set -u
there() {
  for program in chromium chromedriver nginx certutil openssl pdftotext; do
    PATH=$PATH:/usr/sbin command -v "$program" > /dev/null || return
  done
  /usr/bin/python3 -c 'import importlib.util as it, sys; sys.exit(not all(map(it.find_spec, sys.argv[1:])))' \
    babel flask jinja2 PIL pytest selenium waitress
}
packages=(chromium chromium-driver python3-selenium python3-pytest python3-babel python3-jinja2 python3-flask)
packages+=(python3-waitress python3-pil nginx-light libnss3-tools openssl poppler-utils)
install() { DEBIAN_FRONTEND=noninteractive RUNLEVEL=1 apt-get -o DPkg::Lock::Timeout=600 install -y -q --no-install-recommends "${packages[@]}"; }
there && exit
told=$({ install || { apt-get update -q && install; }; } 2>&1)
there && exit
echo "tests/web/setup.sh: ${packages[*]} can't be installed: $(tail -n 1 <<< "$told")" >&2
exit 1
