"""What the gate compares the program, its pages and what is installed with."""
