"""`cpi-tools probe`: what it checks, how it judges that, and how it prints the result."""
