"""What builds the programs, packs them, and builds them again to compare."""
