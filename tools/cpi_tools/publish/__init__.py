"""`cpi-tools publish`: everything that a user of the index downloads."""
