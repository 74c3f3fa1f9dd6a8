"""pandas.merge_asof of the tables in a folder, for bench/peers: peers_pandas.py FOLDER STRATEGY RUNS

Both tables are sorted by their key beforehand, as merge_asof wants them, and numbered. Prints the version and the median of
the processor time in nanoseconds; writes the matches, a right row's number for each left row or -1, as 64-bit floats."""
import os
import statistics
import sys
import time

import numpy
import pandas


def table_of(folder, side):
    """A table in the order of its keys, each row with its number in the order of groups and keys."""
    columns = {name: numpy.fromfile(os.path.join(folder, f'{side}.{name}'), dtype='<i8') for name in ('groups', 'keys')}
    table = pandas.DataFrame({name: column for name, column in columns.items() if len(column)})
    table['row'] = numpy.arange(len(table))
    return table.sort_values('keys', kind='stable', ignore_index=True)


def main():
    """Joins, and tells how long it took."""
    folder, strategy, runs = sys.argv[1:]
    left, right = table_of(folder, 'left'), table_of(folder, 'right')
    places, left = left['row'].to_numpy(), left.drop(columns='row')
    by = 'groups' if 'groups' in left else None
    times = []
    for _ in range(int(runs)):
        start = time.process_time()
        joined = pandas.merge_asof(left, right, on='keys', by=by, direction=strategy)
        times.append(time.process_time() - start)
    matches = numpy.empty(len(left))
    matches[places] = joined['row'].fillna(-1)
    matches.astype('<f8').tofile(os.path.join(folder, 'matches.peer'))
    print(pandas.__version__, round(statistics.median(times) * 1e9))


main()
