"""Maps of the forms that offices have, and the tool that reads sheets by them."""
