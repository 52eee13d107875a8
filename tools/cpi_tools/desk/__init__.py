"""The desk: a month before it is frozen, computed once, on a terminal and in a browser."""
