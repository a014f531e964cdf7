"""fedq-setup: looks at folders of files and at databases, and writes the script that binds them."""
