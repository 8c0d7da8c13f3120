"""The oracle and the reference led through the same lists of calls, and compared."""
