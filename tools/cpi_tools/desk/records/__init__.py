"""Records of the desk: typed, judged on a copy, sent, and kept in the desk's log."""
