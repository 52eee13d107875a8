"""The configuration of a publication, and each figure that is computed from published tables."""
