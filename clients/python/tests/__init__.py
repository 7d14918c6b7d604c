"""Tests of the client, over the program that LAFKUNDI names in the environment; tools/client-test runs them."""
