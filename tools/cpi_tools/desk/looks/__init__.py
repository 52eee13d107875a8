"""A month in the browser: at a glance, its prices to check, its provisional table."""
