"""Each limit of a number that docs/ names, as data: the requests with values around it, and the answers to them."""
