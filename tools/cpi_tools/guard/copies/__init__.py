"""Second copies: of an office's file, of its log, and of the desk's folder."""
