"""`cpi-tools keys`: for each collector a sheet of paper with the key, with which the collector signs in on a phone."""
