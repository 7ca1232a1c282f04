"""Speed, load, instructions and requests for memory, counted."""
