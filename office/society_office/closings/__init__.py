"""Orders: what is due, what they would credit, how they are rehearsed, put right and closed."""
