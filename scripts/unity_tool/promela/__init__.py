"""A second opinion: a program and its claims as Promela, for SPIN."""
