"""The gateway: PostgreSQL's wire protocol for many clients over one `fedq` program.

Nothing of it is proved. What the program answers is proved; the gateway carries it to the clients.
"""
