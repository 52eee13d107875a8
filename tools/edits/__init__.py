"""Edits that the prover must refuse, many of them tried in one run: what `tools/refused` is made of.

`sources` reads a crate, `edits` its edits and the functions that each one changes. `groups` says which edits share a
run, `prover` makes the runs, `report` reads what the prover prints, `rounds` decides what becomes of each edit, and
`cache` keeps what was refused.
"""
