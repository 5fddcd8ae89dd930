"""A second office beside the first: whether both are the same, and how it becomes and stays so."""
