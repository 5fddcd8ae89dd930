"""Whether an office is well: its program, files, disk, backups, decisions and certificate."""
