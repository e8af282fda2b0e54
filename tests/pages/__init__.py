"""What is tested by reading: the pages, with their commands and numbers, and where sources import from."""
