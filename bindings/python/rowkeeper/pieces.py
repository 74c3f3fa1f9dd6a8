"""Pieces of a table on a cluster: how a worker reads one, and the mark by which it is known again wherever it is read.

dask reads a file, or computes a partition, anew when a worker is lost. The places at which a table is cut come from the first reading,
so each further reading must give the same rows: a piece carries its row count, its size and a checksum over all its cells, and a
difference is one error."""
import collections
import hashlib
import os

from .dataframes import modules

Mark = collections.namedtuple('Mark', 'rows size checksum')
Mark.__doc__ = 'How many rows a piece has, how many bytes its cells are, and the SHA-256 of its names, types and cells.'
Piece = collections.namedtuple('Piece', 'frame mark')
Piece.__doc__ = 'A DataFrame as it was read, or computed, and its Mark.'


def file_mark(path):
    """What tells whether a file was written to: its number, size and time; None for a name that is no file's."""
    try:
        found = os.stat(path)
    except (OSError, ValueError):
        return None
    return found.st_ino, found.st_size, found.st_mtime_ns


def read_file(read, path):
    """A worker's reading of a file, as a Piece: by the function that was handed in, else by pandas. ValueError if it was written to
    meanwhile."""
    before = file_mark(path)
    if read is not None:
        frame = read(path)
    else:
        pandas = modules()[1]
        frame = pandas.read_parquet(path) if path.endswith('.parquet') else pandas.read_csv(path)
    if file_mark(path) != before:
        raise ValueError(f'{path} was changed while it was read: join it again when it is no longer written to')
    return marked(frame)


def plain_cells(series, numpy, pandas):
    """The cells of a column as an array of numpy whose bytes tell them apart: nulls may be any value. Text and other objects come as
    the 64-bit numbers that pandas makes of them, the same ones in every process."""
    dtype = series.dtype
    if isinstance(dtype, pandas.CategoricalDtype):
        return pandas.util.hash_array(series.array)
    if isinstance(dtype, pandas.DatetimeTZDtype):
        return series.dt.tz_convert('UTC').dt.tz_localize(None).to_numpy()
    if isinstance(dtype, numpy.dtype) and dtype.kind != 'O':
        return series.to_numpy()
    if hasattr(dtype, 'numpy_dtype'):
        return series.to_numpy(dtype=dtype.numpy_dtype, na_value=0)
    texts = [each if type(each) is str else repr(each) for each in series.astype(object).where(series.notna(), '')]
    return pandas.util.hash_array(numpy.array([*texts, ''], dtype=object), categorize=False)[:-1]


def marked(frame):
    """A DataFrame as a Piece."""
    numpy, pandas, _ = modules()
    total, size = hashlib.sha256(repr([(name, str(dtype)) for name, dtype in zip(frame.columns, frame.dtypes)]).encode()), 0
    for place in range(frame.shape[1]):
        series = frame.iloc[:, place]
        for cells in (plain_cells(series, numpy, pandas), series.isna().to_numpy()):
            cells = numpy.ascontiguousarray(cells).view('u1')
            total.update(cells)
            size += cells.nbytes
    return Piece(frame, Mark(len(frame), size, total.hexdigest()))


def checked(piece, mark, called):
    """The rows of a piece that has the mark of its first reading; ValueError if it was read, or computed, anew and has another one."""
    found = piece.mark
    if found != mark:
        raise ValueError(f'{called} was changed while it was joined: it had {mark.rows} rows and {mark.size} bytes of cells, and has {found.rows} '
                         f'and {found.size}{"" if found[:2] != mark[:2] else ", others"}; join it again')
    return piece.frame
