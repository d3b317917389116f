"""The commands of ./frondicare, a file for each, over the proved programs."""
