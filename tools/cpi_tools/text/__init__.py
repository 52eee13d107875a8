"""Texts, figures and pages: messages and their languages, whole numbers, the terminal."""
