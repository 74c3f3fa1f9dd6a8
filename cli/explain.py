"""What a run did, in a few lines for --explain."""
from rowkeeper.interface import IDLE, WANTS_RIGHT, WROTE


def count(number, what):
    """So many of something."""
    return f'{number:,} {what}' + ('' if number == 1 else 's')


def explanation(args, pricing):
    """The options, the rows, the frames, the turns and the areas."""
    matching, order, kinds = pricing.matching, pricing.kinds.order, pricing.kinds.all()
    join = matching.join
    turns = join.answers
    limit = 'none' if args.tolerance is None else args.tolerance.said
    told = '' if args.distance is None else f', distance in {pricing.layout.names[-1]}'
    columns = [f'{name} ({kind.said})' for name, kind in zip(order.columns, kinds)]
    lines = [
        ('strategy', f'{args.strategy}, equal keys {"match" if args.exact else "do not match"}, tolerance {limit}{told}'),
        ('key', columns[-1]),
        ('by', ', '.join(columns[:-1]) or 'none'),
        ('order', f'{order}; {"sorted first" if args.sort else "checked" if args.check else "not checked"}'),
        ('sales', f'{count(pricing.priced.sales, "row")} in {count(matching.left_frames, "frame")}'),
        ('notices', f'{count(pricing.notices.rows, "row")} read, {join.pruned + join.held:,} of them handed in, in '
                    f'{count(matching.right_frames, "frame")}'),
        ('turns', f'{turns[WROTE]:,} wrote, {turns[WANTS_RIGHT]:,} wanted notices, {turns[IDLE]:,} idle'),
        ('left area', f'{join.left_words:,} words, at most {join.most_waiting:,} used'),
        ('right area', f'{join.right_words:,} words, room for {join.right_rows:,} notices, at most '
                       f'{join.most_held:,} held, enlarged {count(join.grown, "time")}'),
        ('output', f'{len(join.output):,} words'),
    ]
    return ''.join(f'{name:<11} {text}\n' for name, text in lines)
