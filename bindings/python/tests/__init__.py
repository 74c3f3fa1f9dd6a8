"""Tests of the module rowkeeper. They are run from the folder above: python3 -m unittest."""
