"""The words of the command `society-office`; each leaves the work to the module of its subject."""
