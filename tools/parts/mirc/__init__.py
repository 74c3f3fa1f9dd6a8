"""Translates the MIR of the proved library into one C file.

mir.py reads the MIR that the kit keeps for each proved crate. folding.py puts temporaries where
they are read. names.py finds the names and comments of the source. types.py, expressions.py and
statements.py write C; exports.py writes the functions of the header; whole.py puts the file
together. A construct that a module does not know raises Unknown, and then no file is written."""
