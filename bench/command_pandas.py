"""What the command does, by pandas: reads two CSV files, gives each sale its notice, writes the sales in their order, or what their
notices come to by performance; or makes two books one, sorted; or writes the last notice of each performance and key of the second.

command_pandas.py SALES NOTICES OUTPUT numbers|times join|takings|merge|standing"""
import sys

import pandas

sales, notices, output, kind, what = sys.argv[1:]


def table(path):
    """A file, its keys as numbers or times."""
    return pandas.read_csv(path, parse_dates=['sold_at'] if kind == 'times' else False)


def joined(left, right):
    """The sales in their order, each with its notice. Keys must ascend over all groups for that."""
    key = left.columns[1]
    right.insert(0, 'notice_row', range(len(right)))
    right['notice_key'] = right[key]
    left['place'] = range(len(left))
    found = pandas.merge_asof(left.sort_values(key, kind='stable'), right.sort_values(key, kind='stable'), on=key, by='performance')
    return found.sort_values('place', kind='stable').drop(columns='place')


if what == 'standing':
    merged = table(notices)
    merged = merged.drop_duplicates(list(merged.columns[:2]), keep='last')
elif what == 'merge':
    merged = pandas.concat([table(sales), table(notices)], ignore_index=True)
    merged = merged.sort_values(list(merged.columns[:2]), kind='stable')
elif what == 'takings':
    merged = joined(table(sales), table(notices))
    merged = merged[merged['notice_row'].notna()]
    merged = merged.groupby('performance', as_index=False).agg(total=('price', 'sum'), sales=('price', 'count'))
    merged['total'] = merged['total'].astype('int64')
else:
    merged = joined(table(sales), table(notices))
    merged['notice_row'] = merged['notice_row'].astype('Int64')
merged.to_csv(output, index=False)
