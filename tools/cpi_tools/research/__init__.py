"""Files for researchers: frozen prices without names, made coarse by the office's rules, with a record of each file."""
