"""The works of a copy: what stands in their bodies, whose they are, and which are found."""
