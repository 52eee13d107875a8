#!/usr/bin/env bash
# Installs the linters that test_linters.py runs, of Debian: mypy, black, pyflakes, ShellCheck, codespell and TypeScript,
# and the libraries whose types mypy reads (the others are those of tools/setup); python3-typeshed has the types of those
# that bring none. If all is there already nothing is done.
set -u
there() {
  for program in mypy black pyflakes3 shellcheck codespell tsc; do
    command -v "$program" > /dev/null || return
  done
  /usr/bin/python3 -c 'import flask, jinja2, markdown_it, openpyxl, pytest, segno, selenium, waitress; import importlib.util as it
if not it.find_spec("babel-stubs"): raise ImportError' 2> /dev/null
}
packages=(mypy python3-typeshed black pyflakes3 shellcheck codespell node-typescript)
packages+=(python3-jinja2 python3-openpyxl python3-pytest python3-segno python3-selenium python3-flask)
packages+=(python3-waitress python3-markdown-it)
install() { DEBIAN_FRONTEND=noninteractive apt-get -o DPkg::Lock::Timeout=600 install -y -q --no-install-recommends "${packages[@]}"; }
there && exit
told=$({ install || { apt-get update -q && install; }; } 2>&1)
there && exit
echo "tests/linters/setup.sh: ${packages[*]} can't be installed: $(tail -n 1 <<< "$told")" >&2
exit 1
