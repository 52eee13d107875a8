"""An office as the tools see it: `cpi` asked, on a copy or by the public way; its file read; files written."""
