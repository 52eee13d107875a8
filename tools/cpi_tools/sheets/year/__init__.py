"""The sheets of a coming year: its draft, its sample, its moved weights."""
