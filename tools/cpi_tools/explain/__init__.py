"""`cpi-tools explain`: a figure down to its receipts, and the life of a series.

The tool treats the rows of a copy as claims: each line computes what its row must be from the rows that it comes from.
"""
