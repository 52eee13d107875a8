"""The freeze of a month by two people, the reason of a revision, and the website."""
