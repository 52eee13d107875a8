"""The second office, by docs/reference/OFFICE.md and docs/reference/FORMATS.md: slow and plain, to compare `cpi` with."""
