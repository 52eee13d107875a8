"""A national office under faults, in simulated time, and a judge of it (tests/year)."""
