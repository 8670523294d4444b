"""The checks of the command `league`, which checks/league_writing runs."""
