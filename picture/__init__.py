"""The commands explain and picture: a board and its simulated update in plain words, and drawn."""
