"""The command rowkeeper: an as-of join of two CSV files, over the module rowkeeper and so over the proved library."""
import os
import sys

# In the repository the module is in bindings/python; installed it is beside this package.
MODULE = os.path.join(os.path.dirname(os.path.dirname(os.path.realpath(__file__))), 'bindings', 'python')
if os.path.isdir(MODULE):
    sys.path.insert(0, MODULE)
