"""The programs that `ops/try` and the examples start: a front, the desk's pages, a website."""
