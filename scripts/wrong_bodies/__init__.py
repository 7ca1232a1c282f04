"""Wrong bodies: the edits that a check has to refuse."""
