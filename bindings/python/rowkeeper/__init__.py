"""Rowkeeper's as-of join for Python: each row of a left table takes, from a right table, the last row whose key is not
greater, the first whose key is not smaller, or the nearest, within its group.

`merge_asof` joins two DataFrames and takes pandas' names, `asof` joins columns, and a `Join` makes the calls of the proved
library one by one. Without a join, `spans` lists which points lie inside which intervals, `merge` makes two sorted books one,
`standing` tells which notices of a book stand, `plan` how large an area a join wants, and `cut` where a table is cut so that its parts
can be joined apart: `join_cut` does that in one call, `pairs` in processes of any kind, `cluster` on the workers of dask. numpy, pandas
and dask are used if they are there; `merge_asof` needs pandas, and `cluster` dask."""
from .asof_join import AsOf, asof
from .columns import Column
from .dataframes import merge_asof
from .guard import Interrupted
from .interface import (DONE, FLUSH, IDLE, PORT_BLOCKED, PORT_DONE, PORT_READY, REFUSALS, REFUSED, RUNNING, STRATEGIES,
                        TURNS_USED, VERSION, WANTS_RIGHT, WROTE)
from .join import Join, Matches, Ports, Refused, Run, Turn
from .library import NoLibrary
from .tables import Answers, Plan, Spans, Standing, Table, cut, join_cut, merge, plan, spans, standing
from .takings import Takings

__version__ = VERSION
__all__ = ['Answers', 'AsOf', 'Column', 'DONE', 'FLUSH', 'IDLE', 'Interrupted', 'Join', 'Matches', 'NoLibrary', 'PORT_BLOCKED', 'PORT_DONE', 'PORT_READY', 'Plan',
           'Ports', 'REFUSALS', 'REFUSED', 'RUNNING', 'Refused', 'Run', 'STRATEGIES', 'Spans', 'Standing', 'TURNS_USED', 'Table', 'Takings', 'Turn',
           'VERSION', 'WANTS_RIGHT', 'WROTE', 'asof', 'cut', 'join_cut', 'merge', 'merge_asof', 'plan', 'spans', 'standing']
