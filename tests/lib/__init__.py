"""The modules that the scripts of tests/ share: the harness, the program and its runs, offices, cases, files,
connections."""
