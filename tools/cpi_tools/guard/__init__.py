"""Tools that keep an office safe: backups, restores, drills, a second machine, and lists of losses."""
