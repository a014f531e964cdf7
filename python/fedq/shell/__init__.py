"""fedq-shell: reads SQL as a person writes it, sends it to the program, and prints what that answers."""
