"""Tests of the clients; `python3 -m unittest discover -s clients -t clients` runs them."""
