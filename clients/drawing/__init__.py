"""Pictures of the fault memory: what draw.py is built on."""
