"""The command line."""
import argparse
import re
import csv

from rowkeeper.interface import MOST_BY, MOST_CARRIED, MOST_RANKS, MOST_ROWS, STRATEGIES, VERSION

from .cells import MOST, number
from .dates import ORDERS, Zone
from .input import DASH, known_encoding
from .kinds import Tolerance, listed_codes
from .page import PAGE, SHORT, page_of
from .problem import BAD_USAGE, Problem, quoted
from .times import microseconds

# What stands in front of a name of the notices that the sales have too, and of the output's own names.
PREFIX = 'notice_'

# What --separator may be called.
SEPARATORS = {'tab': '\t', '\\t': '\t', 'comma': ',', 'semicolon': ';'}

# The most places of --decimals.
MOST_DECIMALS = 6


class Parser(argparse.ArgumentParser):
    """A parser whose faults are one line, and whose help is a page."""

    def error(self, message):
        """One line, and the status of a bad command line."""
        raise Problem(f'{message}; rowkeeper --help tells more', BAD_USAGE)

    def format_help(self):
        """The page, or what it says of one command."""
        _, _, command = self.prog.partition(' ')
        return page_of(command, {option for action in self._actions for option in action.option_strings}) if command else PAGE

    def format_usage(self):
        """The two lines of usage."""
        return SHORT


class Once(argparse.Action):
    """An option that can be said once."""

    def __call__(self, parser, namespace, values, option_string=None):
        """Takes the value, unless there is one."""
        if getattr(namespace, self.dest) is not None:
            raise argparse.ArgumentError(self, 'is said twice')
        setattr(namespace, self.dest, values)


def split(text):
    """Names or codes with commas between them; those that have a comma themselves are in quotes, as in CSV."""
    try:
        return [each.strip() for each in next(csv.reader([text], strict=True), [])]
    except csv.Error:
        raise argparse.ArgumentTypeError(f'{quoted(text)} cannot be read: a quote is not closed, or closed too early') from None


def tolerance(text):
    """What --tolerance says: a number, or a length of time in microseconds."""
    count = microseconds(text)
    if count is not None:
        return Tolerance(count, True, ''.join(text.split()))
    try:
        value = number(text)
    except ValueError as why:
        raise argparse.ArgumentTypeError(f'{why}, nor a time with d, h, m or s' if 'whole' in str(why) else str(why)) from None
    if value is None or value < 0:
        raise argparse.ArgumentTypeError(f'must be a number from 0 to {MOST}, or a time as 2h')
    return Tolerance(value, False, str(value))


def ranks(text):
    """What --rank says: it is cut at the sign behind the name of a by-column, once these are known."""
    if '=' not in text:
        raise argparse.ArgumentTypeError(f'must be COLUMN=CODES, as band=30,10,20, not {quoted(text)}')
    return text


def names(text):
    """The columns of --columns."""
    found = split(text)
    if '' in found or not found:
        raise argparse.ArgumentTypeError('there is an empty name')
    return found


def separator(text):
    """One character, or a name of one."""
    found = SEPARATORS.get(text, text)
    if len(found) != 1 or found in '"\r\n\0':
        raise argparse.ArgumentTypeError(f'must be one character, or the word tab, not {quoted(text)}')
    return found


def prefix(text):
    """Any text but an empty one."""
    if not text or not text.isprintable():
        raise argparse.ArgumentTypeError('must be a text that can be printed, and not empty')
    return text


def add_common(command):
    """What every command takes: the column that is compared, how files are written and sorted, and where the output goes."""
    command.add_argument('--on', action=Once, metavar='COLUMN')
    command.add_argument('--sort', action='store_true')
    command.add_argument('--separator', type=separator, action=Once, metavar='SIGN')
    command.add_argument('--encoding', action=Once, metavar='NAME')
    command.add_argument('--dates', choices=ORDERS, action=Once)
    command.add_argument('--zone', type=Zone, action=Once, metavar='NAME')
    command.add_argument('-o', '--output', action=Once, metavar='FILE')
    command.add_argument('--quiet', action='store_true')


def add_groups(command):
    """What the commands over sales and notices take: the by-columns, and how they are sorted."""
    for option in ('--by', '--descending', '--nulls-last'):
        command.add_argument(option, action='append', default=[], metavar='COLUMN')
    command.add_argument('--rank', type=ranks, action=Once, metavar='COLUMN=CODES')


def add_files(command):
    """What the commands over sales take: both files, and what each calls its columns."""
    command.add_argument('sales', metavar='SALES.csv')
    command.add_argument('notices', metavar='NOTICES.csv')
    for option in ('--left-on', '--right-on'):
        command.add_argument(option, action=Once, metavar='COLUMN')
    for option in ('--left-by', '--right-by'):
        command.add_argument(option, action='append', default=[], metavar='COLUMN')


def add_encodings(command):
    """The encoding of each of two files."""
    for option in ('--left-encoding', '--right-encoding'):
        command.add_argument(option, action=Once, metavar='NAME')


def add_check(command):
    """Whether the order of rows is looked at."""
    command.add_argument('--strict', '--check', dest='check', action='store_true', default=True)
    command.add_argument('--no-check', dest='check', action='store_false')


def add_strategy(command):
    """Which notice a sale takes."""
    command.add_argument('--strategy', choices=STRATEGIES, action=Once)
    command.add_argument('--no-exact', dest='exact', action='store_false')


def add_join(join):
    """What `rowkeeper join` takes besides."""
    join.add_argument('--tolerance', type=tolerance, action=Once, metavar='N')
    join.add_argument('--distance', type=prefix, nargs='?', const=True, action=Once, metavar='NAME')
    join.add_argument('--stream', action='store_true')
    join.add_argument('--cluster', action=Once, metavar='ADDRESS')
    join.add_argument('--columns', type=names, action=Once, metavar='COLUMNS')
    join.add_argument('--prefix', type=prefix, action=Once, metavar='TEXT')
    join.add_argument('--matched-only', action='store_true')
    join.add_argument('--fail-unmatched', action='store_true')
    join.add_argument('--explain', action='store_true')


def add_picture(picture):
    """What `rowkeeper picture` takes besides; what is `join`'s alone is as if nothing were said."""
    picture.add_argument('--price', action=Once, required=True, metavar='COLUMN')
    picture.set_defaults(strategy=None, exact=True, tolerance=None, distance=None, stream=False, cluster=None, columns=None, prefix=None,
                         matched_only=False, fail_unmatched=False, explain=False)


def add_merge(merge):
    """What `rowkeeper merge` takes besides. The library merges sorted books alone, so the order is always looked at."""
    merge.add_argument('house', metavar='HOUSE.csv')
    merge.add_argument('festival', metavar='FESTIVAL.csv')
    merge.set_defaults(check=True)


def add_standing(standing):
    """What `rowkeeper standing` takes besides."""
    standing.add_argument('notices', metavar='NOTICES.csv')
    standing.add_argument('--withdrawn', action=Once, metavar='COLUMN')
    standing.add_argument('--all', action='store_true')
    standing.set_defaults(check=True)


def add_passes(passes):
    """What `rowkeeper passes` takes besides. The library takes times of performances that ascend alone, and knows no groups here."""
    passes.add_argument('passes', metavar='PASSES.csv')
    passes.add_argument('performances', metavar='PERFORMANCES.csv')
    for option, place in (('--from', 'lower'), ('--to', 'upper')):
        passes.add_argument(option, dest=place, action=Once, required=True, metavar='COLUMN')
        passes.add_argument(f'--exclude-{option[2:]}', dest=f'{place}_inclusive', action='store_false')
    passes.set_defaults(check=True, by=[], descending=[], nulls_last=[], rank=None)


def from_to(first, last):
    """What reads a whole number from one to another."""
    def read(text):
        """The number."""
        if not re.fullmatch('[0-9]{1,9}', text) or not first <= int(text) <= last:
            raise argparse.ArgumentTypeError(f'must be a whole number from {first} to {last:,}, not {quoted(text)}')
        return int(text)
    return read


def add_plan(plan):
    """What `rowkeeper plan` takes besides. The library plans for sorted tables alone, so the order is always looked at."""
    for option in ('--sales-frame', '--notices-frame'):
        plan.add_argument(option, type=from_to(1, MOST_ROWS), action=Once, metavar='ROWS')
    plan.add_argument('--carried', type=from_to(0, MOST_CARRIED), action=Once, metavar='COLUMNS')
    plan.add_argument('--distance', action='store_true')
    plan.set_defaults(check=True, stream=False, cluster=None, columns=None, matched_only=False, fail_unmatched=False)


def add_takings(takings):
    """What `rowkeeper takings` takes besides. Money is added of files that are judged alone, so the order is always looked at."""
    takings.add_argument('--amount', action=Once, required=True, metavar='COLUMN')
    takings.add_argument('--decimals', type=from_to(0, MOST_DECIMALS), action=Once, metavar='PLACES')
    takings.add_argument('--tolerance', type=tolerance, action=Once, metavar='N')
    takings.add_argument('--add', action='append', default=[], metavar='TAKINGS.csv')
    takings.set_defaults(check=True, stream=False, cluster=None, columns=None, distance=None, matched_only=False, fail_unmatched=False)


def parser():
    """The commands and their options, as the page tells them."""
    top = Parser(prog='rowkeeper', allow_abbrev=False)
    top.add_argument('--version', action='version', version=f'rowkeeper {VERSION}')
    commands = top.add_subparsers(dest='command', metavar='COMMAND', parser_class=Parser)
    for name, adds in (('join', (add_files, add_encodings, add_check, add_strategy, add_join, add_groups)),
                       ('picture', (add_files, add_encodings, add_check, add_picture, add_groups)), ('merge', (add_merge, add_encodings, add_groups)),
                       ('standing', (add_standing, add_groups)), ('passes', (add_passes, add_encodings)),
                       ('plan', (add_files, add_encodings, add_strategy, add_plan, add_groups)),
                       ('takings', (add_files, add_encodings, add_strategy, add_takings, add_groups))):
        command = commands.add_parser(name, allow_abbrev=False)
        for add in (*adds, add_common):
            add(command)
    return top


def one_side(left, right, both, what):
    """The names of one kind of column for both files: those for both, or those for each."""
    if both and (left or right):
        raise Problem(f'--{what}: does not go with --left-{what} and --right-{what}', BAD_USAGE)
    if len(left) != len(right):
        raise Problem(f'--left-{what}, --right-{what}: {len(left)} and {len(right)} columns, but each needs its own', BAD_USAGE)
    return (both, both) if both else (left, right)


def judge_columns(args):
    """Settles which columns are compared: `left` and `right` are the by-columns and the key of each file."""
    some = lambda name: [] if name is None else [name]
    own = lambda name: getattr(args, name, None)
    on = one_side(some(own('left_on')), some(own('right_on')), some(args.on), 'on')
    if not on[0]:
        raise Problem('--on: say which column is compared; rowkeeper --help tells more', BAD_USAGE)
    by = one_side(own('left_by') or [], own('right_by') or [], args.by, 'by')
    if len(by[0]) > MOST_BY:
        raise Problem(f'--by: {len(by[0])} columns, but there can be {MOST_BY} at most', BAD_USAGE)
    args.left, args.right = [*by[0], *on[0]], [*by[1], *on[1]]
    for side in (args.left, args.right):
        twice = next((name for name in side if side.count(name) > 1), None)
        if twice is not None:
            raise Problem(f'--on, --by: column {twice} is named twice', BAD_USAGE)
    for option, columns in (('--descending', args.descending), ('--nulls-last', args.nulls_last)):
        for name in columns:
            if name not in args.left[:-1]:
                raise Problem(f'{option}: {name} is not a --by column', BAD_USAGE)


def judge_rank(args):
    """Stops at a list of codes that cannot be taken."""
    cuts = [(args.rank[:place], args.rank[place + 1:]) for place, sign in enumerate(args.rank) if sign == '=']
    name, codes = next((cut for cut in reversed(cuts) if cut[0] in args.left[:-1]), cuts[0])
    if name not in args.left[:-1]:
        raise Problem(f'--rank: {name if name.isprintable() else quoted(name)} is not a --by column', BAD_USAGE)
    try:
        codes = split(codes)
    except argparse.ArgumentTypeError as why:
        raise Problem(f'--rank: {why}', BAD_USAGE) from None
    if '' in codes or not codes:
        raise Problem('--rank: there is an empty code', BAD_USAGE)
    codes = listed_codes(codes)
    args.rank = name, codes
    if len(codes) > MOST_RANKS:
        raise Problem(f'--rank: {len(codes)} codes, but there can be {MOST_RANKS} at most', BAD_USAGE)
    twice = next((each for each in codes if codes.count(each) > 1), None)
    if twice is not None:
        raise Problem(f'--rank: code {twice if str(twice).isprintable() else quoted(twice)} is named twice', BAD_USAGE)


def judge_sales(args):
    """Stops at options of the commands over sales that do not go together."""
    pairs = (('--no-exact', '--strategy nearest', not args.exact and args.strategy == 'nearest'),
             ('--stream', '--sort', args.stream and args.sort),
             ('--cluster', '--stream', args.cluster and args.stream),
             ('--cluster', '--sort', args.cluster and args.sort),
             ('--cluster', '--no-check', args.cluster and not args.check),
             ('--cluster', '--explain', args.cluster and args.explain),
             ('--cluster', '--distance', args.cluster and args.distance),
             ('--matched-only', '--fail-unmatched', args.matched_only and args.fail_unmatched))
    for option, other, both in pairs:
        if both:
            raise Problem(f'{option}: does not go with {other}', BAD_USAGE)
    args.strategy = args.strategy or STRATEGIES[0]
    if args.command == 'plan':
        args.sales_frame, args.notices_frame = args.sales_frame or MOST_ROWS, args.notices_frame or MOST_ROWS
        args.carried = args.carried or 0
    elif args.command == 'takings':
        args.decimals = args.decimals or 0
    elif args.distance is True:
        args.distance = f'{args.prefix or PREFIX}age'
    args.columns = [args.price] if args.command == 'picture' else args.columns


def judge(args):
    """Stops at options that do not go together."""
    judge_columns(args)
    if args.rank is not None:
        judge_rank(args)
    if 'sales' in args:
        judge_sales(args)
    files = [getattr(args, name) for name in ('sales', 'notices', 'house', 'festival', 'passes', 'performances') if name in args]
    files += args.add if 'add' in args else []
    if files.count(DASH) > 1:
        raise Problem(f'-: standard input can be one of the {"two files, not both" if len(files) == 2 else "files, not more"}', BAD_USAGE)
    for option in ('encoding', 'left_encoding', 'right_encoding'):
        if getattr(args, option, None) is not None:
            setattr(args, option, known_encoding(getattr(args, option), f'--{option.replace("_", "-")}'))


def parse(words):
    """The arguments, judged. `--help` prints the page and ends the program."""
    args = parser().parse_args([*words[1:], '--help'] if words[:1] == ['help'] else words)
    if args.command is None:
        raise Problem('say what to do: rowkeeper join SALES.csv NOTICES.csv --on COLUMN; rowkeeper --help tells more',
                      BAD_USAGE)
    judge(args)
    return args
