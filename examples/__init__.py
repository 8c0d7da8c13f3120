"""The examples and their check."""
