"""The help pages: what `--help` prints, and the same text as a man page.

python3 -m cli.page   prints the man page"""
import re

from rowkeeper.interface import VERSION

SHORT = '''usage: rowkeeper join SALES.csv NOTICES.csv --on KEY [--by COLUMN] [options]
       rowkeeper picture SALES.csv NOTICES.csv --on KEY --price COLUMN [options]
       rowkeeper merge HOUSE.csv FESTIVAL.csv --on KEY [--by COLUMN] [options]
       rowkeeper standing NOTICES.csv --on KEY [--withdrawn COLUMN] [options]
       rowkeeper passes PASSES.csv PERFORMANCES.csv --from COLUMN --to COLUMN
           --on COLUMN [options]
       rowkeeper takings SALES.csv NOTICES.csv --on KEY --amount COLUMN [options]
       rowkeeper plan SALES.csv NOTICES.csv --on KEY [--by COLUMN] [options]
       rowkeeper --help | --version
'''

PAGE = '''rowkeeper: gives every sale of a season the price notice that was in force

  rowkeeper join SALES.csv NOTICES.csv --on minute --by performance

  Both files are CSV with a header line that names the columns. Each sale takes,
  among the notices of its performance, the last one that is not later than the
  sale. The sales come out in their order, each with its notice, as CSV. A line
  at the end says how many sales have a notice.

  Try it, in the repository:

    ./rowkeeper join examples/season/sales.csv examples/season/notices.csv \\
        --on minute --by performance

WHAT COMES OUT
  All columns of the sale; then notice_row, the notice's number in its file (the
  first notice is number 0); then the columns of the notice, without those named
  by --by, which are the sale's own. A name that the sale has already gets
  'notice_' in front. A sale without a notice has these cells empty.
  --columns NAMES      of the notice's columns these alone, in this order:
                       --columns price,reason
  --prefix TEXT        this in place of 'notice_'
  --distance           one more column, the last: notice_age, how far the notice
  --distance NAME      is from the sale, in the --on column's own numbers; of
                       times in days, hours, minutes and seconds, as --tolerance
                       takes them: 11d18h5m, 9h, 0s, 1.5s. Empty for a sale
                       without a notice, and for numbers further apart than
                       2^63 - 1. NAME is the column's name in place of
                       notice_age. Say it behind the files
  --matched-only       leave out the sales without a notice
  --fail-unmatched     if a sale has no notice, write nothing, and end with 4

WHAT GOES IN
  The --on column holds whole numbers (64 bits, minus sign allowed) or dates and
  times as tills write them: 2026-01-05 19:30, 2026/1/5, 05.01.2026 19:30:05,
  1/5/2026 7:30 PM, 2026-01-05T19:30:05.123456; with a zone behind the time (Z,
  +01:00, +0100) in all cells or in none. A column has one form, which its first
  cell shows; each file may have its own. With dots the day comes first. With
  slashes it is never guessed: a date such as 13/1/2026 settles it for the whole
  column and a line says so, else say --dates. A date alone is its midnight, and
  24:00 is the next one. What is finer than microseconds is refused.
  --dates ORDER        dmy or mdy: day or month first in dates as 1/5/2026; ymd:
                       only dates with the year first; excel: numbers are
                       Excel's dates, as 46027.8125
  --on DATE+TIME       a date and a time of day in two columns, as --on
                       sold_date+sold_time; where one is empty the time is not
                       known
  --zone NAME          times that name no zone are local ones of this place, as
                       Europe/Berlin. In the hour that the end of summer time
                       repeats, times are the first until they fall, then the
                       second: in a sorted file for each performance, with
                       --sort in the order of the file. Where they do not fall
                       nothing tells which is meant, and the run ends. It needs
                       Python 3.9
  --by columns hold any text. If all cells of one are whole numbers, in both
  files, they are compared as numbers (7 is 007), else as text, letter by letter
  (7 is not 007, and 10 comes before 7). Blanks around a cell do not count.
  An empty cell in these columns means 'not known': a sale whose minute or
  performance is not known gets no notice, and a notice without them is given to
  no sale. All other columns are carried along as they are.
  Both files must be sorted: by the --by columns in turn, then by the --on
  column; ascending, empty cells first. Or say --sort. Blank lines are passed
  and not counted, and so are lines of separators alone, a first line as sep=;
  and up to 20 lines above the header. A line can have 16 MB, and a row that
  runs over lines 10,000 of them. Memory goes by the notices that lie
  between two sales of one performance (about 50 bytes each), and by the
  different texts of the --by columns, not by the length of the files.
  -                    as a file's name: standard input
  --separator SIGN     what stands between the columns of both files: ';', tab.
                       Else ',' or, if the columns are found by it, ';' or tab.
                       What comes out is separated as the first is
  --encoding NAME      the files are in this encoding, as cp1252, and not in
                       UTF-8. A file that begins with a byte order mark (UTF-8
                       or UTF-16) says it itself. What comes out is UTF-8, with
                       a mark if the first has one or is in another encoding
  --left-encoding NAME   the encoding of the first file alone
  --right-encoding NAME  that of the second alone

WHICH NOTICE
  --on COLUMN          the column that is compared, as the minute of the sale
                       and of the notice
  --by COLUMN          sale and notice must be equal here, as the performance;
                       up to four times: --by performance --by band
  --left-on COLUMN     in place of --on, if the files name the column
  --right-on COLUMN    differently: --left-on sold_at --right-on valid_from
  --left-by COLUMN     in place of --by, as often as there are columns; other
  --right-by COLUMN    options name a column as the sales do
  --strategy WHICH     backward  the last notice not later than the sale (this
                                 is what happens when nothing is said)
                       forward   the first notice not earlier than the sale
                       nearest   the notice nearest to the sale; of two equally
                                 near the later one
  --no-exact           a notice of the sale's own minute does not count (does
                       not go with nearest)
  --tolerance N        the notice may be at most N away from the sale; for times
                       with d, h, m or s: --tolerance 2h, --tolerance 1d12h

HOW THE FILES ARE SORTED
  --sort               sort both files first; rows that are equal stay in their
                       order, and the sales come out in their own order. What
                       does not fit into memory goes to temporary files
  --descending COLUMN  the numbers or texts of this --by column fall
  --nulls-last COLUMN  the empty cells of this --by column come last
  --rank COLUMN=CODES  this --by column is sorted in the order of these codes:
                       --rank band=30,10,20, --rank band=stalls,circle,gods. Up
                       to 64 codes; no other may stand in the column
  --strict             look that every row of both files comes in order, to
                       their ends (this is what happens when nothing is said);
  --check              is the same
  --no-check           do not look: faster, but sales may get a wrong notice
                       where a file is not sorted

WHERE IT GOES
  Nothing is written before both files have been read to their ends and found
  right. They are read twice; what is no file, as a pipe, is copied to a
  temporary file first (in TMPDIR, else the system's folder).
  -o FILE
  --output FILE        write to this file instead of the screen; the file
                       appears only when it is whole, else it stays as it was
  --stream             read once and write rows as soon as they are matched.
                       If something is wrong further down, a line says so when
                       wrong rows may have been written: do not use them unless
                       the status is 0. --by columns hold whole numbers then
  --cluster ADDRESS    join on the workers of the dask scheduler that is there,
                       as tcp://till:8786. They need this version of the Python
                       module. What comes out is the same. The files are read
                       and written here, and the numbers of the --by and --on
                       columns must fit into memory (16 bytes a cell). Does not
                       go with --stream, --sort, --no-check, --explain or
                       --distance
  --quiet              say nothing where all goes well
  --explain            tell at the end what was done: options, rows, frames,
                       turns, memory

A PICTURE
  rowkeeper picture SALES.csv NOTICES.csv --on minute --by performance \\
      --price price -o season.svg

  draws the notices of each performance as steps and its sales as points on
  them, as SVG: up to 40 performances, 50,000 rows a file. It takes the options
  on columns, files, sorting and -o.
  --price COLUMN       the column of the notices that is drawn, as 1800 or 12.50

TWO BOOKS AS ONE
  rowkeeper merge HOUSE.csv FESTIVAL.csv --on minute --by performance

  makes two sorted books of notices one: every row of both as it came in, and of
  rows that are equal in the --by and --on columns the house's first. Both books
  have the same columns. If the festival has them in another order, or with
  another separator, its rows come out as the house has them.

WHICH NOTICES STAND
  rowkeeper standing NOTICES.csv --on minute --by performance \\
      --withdrawn withdrawn

  writes the notices that stand: of each performance and minute the last one,
  unless it withdraws itself. The others are corrected, or withdrawn, by that
  last one. A notice whose minute or performance is not known does not stand.
  --withdrawn COLUMN   1 in this column withdraws, 0 or an empty cell does not;
                       without this option none is withdrawn
  --all                write all notices, each with two more columns: stands,
                       which is yes or no, and last_line, the line of the notice
                       by which it is corrected or withdrawn (its own if it
                       withdraws itself)

  Both commands take the options on columns (--on, --by), files, sorting and -o.
  With --sort a merged book comes out sorted, and the notices that stand come
  out in their own order. Memory does not grow with the files; for standing it
  does with the notices of one performance and minute, about 150 bytes each.

WHICH PERFORMANCES A PASS COVERS
  rowkeeper passes PASSES.csv PERFORMANCES.csv --from valid_from \\
      --to valid_to --on starts

  writes a row for each pass and each performance that it covers: all columns
  of the pass, then all of the performance, as they came in. A name that the
  passes have already gets 'performance_' in front. Rows come in the order of
  the passes, and for each pass in that of the performances. A line at the end
  counts the rows and the passes that cover a performance.
  --from COLUMN        the column of the passes with the first time of each
  --to COLUMN          the column with the last time
  --on COLUMN          the column of the performances with the time of each
  --exclude-from       a performance at the first time itself is not covered
  --exclude-to         a performance at the last time itself is not covered

  The three columns hold whole numbers, or all of them dates and times. A date
  alone in --to is that whole day, to its end; with --exclude-to the day is not
  covered. Elsewhere a date is its midnight. A pass without one of its times
  covers nothing, and so does one whose last time is before its first. Every
  performance has its time, and they are sorted by it; or say --sort, and they
  come out in their own order all the same. Passes are in any order. It takes
  the options on files and -o. Memory goes by the performances, and by the rows
  of some passes at once.

WHAT WAS TAKEN
  rowkeeper takings SALES.csv NOTICES.csv --on minute --by performance \\
      --amount price

  gives each sale its notice, as join does, and adds the amounts of these
  notices for each performance. A row for each performance in order, by number,
  by text or as --descending and --rank say: the --by columns under the sales'
  names, total, and sales, which counts the sales that were added. A number
  comes out as 7, also where 007 stands. The last line has no performance and no
  total; its sales are those whose notice has no amount. A sale without a notice
  is in no row; the line at the end counts them.
  --amount COLUMN      the column of the notices with the amount: whole numbers,
                       up to 1,000,000,000 in size, or empty
  --decimals PLACES    amounts have up to so many places, 1 to 6, behind a point
                       or a comma: with --decimals 2 as 18, 18.5 and 18,50, and
                       up to 10,000,000.00. Totals have just so many, and a
                       point. Nothing is rounded: an amount with more places is
                       refused, and with any where nothing is said
  --add TAKINGS.csv    add what this command wrote before, as for another day or
                       another till; as often as there are such files. They have
                       the same --by columns and the same --decimals, and their
                       last line is added too. To add such files alone give
                       sales that are a header line and nothing else

  In whatever order sales and files are added, the same file comes out, if each
  --by column holds numbers in all runs, or text in all. It takes the options on
  columns, files, sorting and -o, and --strategy, --no-exact and --tolerance.
  Both files must be sorted, or say --sort. If a --by column is called total or
  sales, the output's own has 'takings_' in front. Memory goes by the
  performances.

HOW MUCH MEMORY TO LEND
  rowkeeper plan SALES.csv NOTICES.csv --on minute --by performance \\
      --carried 1

  For makers who fix the memory of a till before the season: prints the words,
  and the bytes, of the three arrays that a join over these files is lent, and
  writes no match. All frames of sales wait, and a frame of notices is handed
  in when a turn wants one. The right area is the smallest: with one notice
  less a frame is refused.
  --sales-frame ROWS   the sales are handed in so many at a time, 1 to 4,096
  --notices-frame ROWS the notices are; 4,096 where nothing is said
  --carried COLUMNS    each notice carries so many columns, 0 to 8; 0 where
                       nothing is said
  --distance           answers have the distance as their last column

  It takes the options on columns, files, sorting and -o, and --strategy and
  --no-exact. Both files must be sorted, or say --sort. Memory goes by the rows.

EXIT STATUS
  If something is wrong one line says what, with file, line and column. Lines
  are counted as an editor counts them: the header is line 1.
  0    all went well
  1    something is wrong with the files
  2    something is wrong with the command line
  3    there is no library, or no dask where --cluster wants it
  4    a sale has no notice, with --fail-unmatched
  130  ended by Ctrl-C
  141  whoever read standard output has gone
  143  ended by SIGTERM; 129 by SIGHUP

THE LIBRARY
  The library that does the join is compiled from proved source. An installed
  command has it beside it. In the repository the first run makes it from dist/
  with the C compiler (cc, or what CC names), which takes some seconds: on
  64-bit x86 Linux from assembly, elsewhere from the C file. Each run compares
  it with its checksum and makes it anew if it was altered. If the repository
  cannot be written, the library is kept in the user's cache folder.
  --version            print the version, and nothing else
  ROWKEEPER_ARCHIVE    in the environment: the path of another archive of the
                       library, to be used in the repository in its place
  ROWKEEPER_FROM=c     in the environment: the library from the C file, on
                       64-bit x86 Linux too
'''


# The sections of each command's own help, before those that commands share.
OWN = {'join': ('WHAT COMES OUT',), 'picture': ('A PICTURE',), 'merge': ('TWO BOOKS AS ONE',), 'standing': ('WHICH NOTICES STAND',),
       'passes': ('WHICH PERFORMANCES A PASS COVERS',), 'takings': ('WHAT WAS TAKEN',), 'plan': ('HOW MUCH MEMORY TO LEND',)}
SHARED = ('WHAT GOES IN', 'WHICH NOTICE', 'HOW THE FILES ARE SORTED', 'WHERE IT GOES', 'EXIT STATUS')

# An entry of the page that tells an option, and a line that goes on with it.
ENTRY, GOES_ON = re.compile('  (--?[a-z][a-z-]*)'), ' ' * 20


def sections():
    """The page's sections, by their headings; what stands before the first has none."""
    found, heading = {'': []}, ''
    for line in PAGE.splitlines():
        if line and line == line.upper() and not line.startswith(' '):
            heading = line
            found[heading] = []
        else:
            found[heading].append(line)
    return found


def with_options(lines, options):
    """The lines of a section, without the entries of options that a command does not have."""
    kept, keeps = [], True
    for line in lines:
        entry = ENTRY.match(line)
        keeps = entry.group(1) in options if entry else keeps or not line.startswith(GOES_ON)
        kept += [line] if keeps else []
    return kept


def page_of(command, options):
    """What the page says of one command: its own section and its options in the others."""
    found = sections()
    usage = re.search(f'rowkeeper {command} [^\\n]*(?:\\n {{10,}}[^\\n]*)*', SHORT).group()
    lines = [f'usage: {usage}', *(found[''][1:] if command == 'join' else [''])]
    for heading in OWN[command] + SHARED:
        lines += [heading, *with_options(found[heading], options)]
    return '\n'.join(lines).rstrip('\n') + '\n\nrowkeeper --help is the whole page.\n'


def roff(line):
    """A line of text as a man page has it: no character of it is taken for a command."""
    text = line.replace('\\', '\\e').replace('-', '\\-').replace("'", '\\(aq')
    return '\\&' + text if text.startswith('.') else text


def man():
    """The page as a man page: its headings are sections, its lines stay as they are."""
    title, _, rest = PAGE.partition('\n')
    name, _, what = title.partition(': ')
    lines = [f'.TH ROWKEEPER 1 "" "rowkeeper {VERSION}"', '.SH NAME', f'{name} \\- {roff(what)}', '.SH SYNOPSIS', '.nf']
    lines += [roff(line.replace('usage: ', '').strip()) for line in SHORT.splitlines()] + ['.fi', '.SH DESCRIPTION', '.nf']
    for line in rest.strip('\n').split('\n'):
        if line and line == line.upper() and not line.startswith(' '):
            lines += ['.fi', f'.SH {line}', '.nf']
        else:
            lines.append(roff(line[2:]))
    return '\n'.join(lines + ['.fi']) + '\n'


if __name__ == '__main__':
    print(man(), end='')
