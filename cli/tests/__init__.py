"""Tests of the command; cli/check runs them all."""
