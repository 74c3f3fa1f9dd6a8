"""Tests of the translator: each construct with the C that it becomes, and faults that the tests must see."""
