"""The description of the interface (rowkeeper.txt), its reader, and the writers of its mirrors. tools/interface runs them."""
