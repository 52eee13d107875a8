"""Spreadsheets in and out: sheets become records, judged by `cpi`; an office becomes sheets."""
