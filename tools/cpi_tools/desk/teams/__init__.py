"""A supervisor's page: how far the collectors of a team are."""
