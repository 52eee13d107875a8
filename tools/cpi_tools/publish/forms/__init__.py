"""The forms of data in which figures are published."""
