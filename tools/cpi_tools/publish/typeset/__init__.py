"""A release on paper: two sheets as a PDF."""
