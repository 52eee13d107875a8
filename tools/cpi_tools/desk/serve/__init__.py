"""`cpi-tools desk serve`: the desk's pages in a browser, over copies of the office's file and the office's
interface."""
