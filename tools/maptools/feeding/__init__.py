"""Servers that are fed from one log of commits in PostgreSQL."""
