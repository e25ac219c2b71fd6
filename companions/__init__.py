"""The companions of an alarm office: commands that stand beside it, and use its HTTP interface and its backups alone."""

VERSION = "1.0.0"
