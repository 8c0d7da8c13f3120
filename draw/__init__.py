"""A saved image as a picture, and what a pick on it chooses."""
