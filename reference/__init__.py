"""The piece picker once more, written from document 01: pure functions on exactly the state that an image holds."""
