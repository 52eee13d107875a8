"""The tests of the pages in a real Chromium, and of the front before the office."""
