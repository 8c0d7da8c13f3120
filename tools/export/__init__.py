"""What is written of the exports: answers in numbers, and the exported calls."""
