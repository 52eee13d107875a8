"""The tests of what other programs make of what is made here."""
