"""Gates the message types of a repository against a revision of it."""
