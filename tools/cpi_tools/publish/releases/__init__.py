"""Releases: their pages as of their day, pictures, feed and quality."""
