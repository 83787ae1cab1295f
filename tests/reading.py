"""Document 01's job file and its refusals 1 to 8, read on its own; 5 is as request #101 has it, the L section and 2 as #102 and #109, 1 as
#104, the sections M and H, 8 and 12 as #106."""
import re
from math import prod

POLICIES = [b"EXACT", b"RETURN", b"TRAVERSAL", b"MIDPOINT", b"COMPOSITE", b"LARGEST"]
NUMBER = re.compile(rb"0|[1-9][0-9]{0,4}")


class NotAJobFile(Exception):
    pass


def number(field):
    if not NUMBER.fullmatch(field) or int(field) > 65535:
        raise NotAJobFile
    return int(field)


def read(job):
    """The layout's seven numbers, the posts (cells between two, width of one), the stock records, the hours (minute, windows) and the
    list lines."""
    lines = job.split(b"\n")
    if len(job) > 16384 or lines.pop() != b"":
        raise NotAJobFile

    def line(width):
        fields = lines.pop(0).split(b" ") if lines else []
        if len(fields) != width:
            raise NotAJobFile
        return fields

    def section(letter, width):
        name, count = line(2)
        if name != letter:
            raise NotAJobFile
        return [[number(field) for field in line(width)] for _ in range(number(count))]

    opening = line(2)
    if opening not in ([b"L", b"1"], [b"L", b"2"], [b"L", b"3"]):
        raise NotAJobFile
    *layout, policy = line(8)
    if policy not in POLICIES:
        raise NotAJobFile
    layout = [number(field) for field in layout]
    # no posts are as good as posts of no width
    posts = [number(field) for field in line(2)] if opening[1] != b"1" else [1, 0]
    if opening[1] == b"3" and line(1) not in ([b"FRONT"], [b"BACK"]):
        raise NotAJobFile
    stock = section(b"S", 4)
    # no hours are as good as a minute without windows
    minute, windows = 0, []
    if lines[:1] == [b"M 1"]:
        [[minute]] = section(b"M", 1)
        windows = section(b"H", 3)
    orders = section(b"D", 2)
    if lines:
        raise NotAJobFile
    return layout, posts, stock, (minute, windows), orders


def open_stock(stock, hours):
    """The stock records with those of shut aisles holding nothing."""
    minute, windows = hours
    shut = {aisle for aisle, _, _ in windows} - {aisle for aisle, start, end in windows if start <= minute < end}
    return [(aisle, cell, article, 0 if aisle in shut else held) for aisle, cell, article, held in stock]


def within(numbers, *bounds):
    return all(1 <= value <= most for value, most in zip(numbers, bounds))


def twice(items):
    return len(set(items)) < len(items)


def refusal(job):
    """The number of the refusal, or 0 for a job that is served."""
    try:
        layout, (bay, post), stock, hours, orders = read(job)
    except NotAJobFile:
        return 1
    aisles, cells = layout[:2]
    if not within([*layout, bay], 16, 24, 60, 30, 60, 400, aisles, 24) or post > 10:
        return 2
    if len(stock) > 384 or not all(within(record, aisles, cells, 65535, 255) for record in stock):
        return 3
    if twice([(aisle, cell) for aisle, cell, _, _ in stock]):
        return 4
    minute, windows = hours
    if minute > 1439 or len(windows) > 64 or not all(1 <= aisle <= aisles and start < end <= 1440 for aisle, start, end in windows):
        return 12
    if len(orders) > 8 or not all(within(order, 65535, 255) for order in orders):
        return 5
    if twice([article for article, _ in orders]):
        return 6
    if prod(quantity + 1 for _, quantity in orders) > 256:
        return 7
    open_now = open_stock(stock, hours)
    if any(sum(held for _, _, other, held in open_now if other == article) < quantity for article, quantity in orders):
        return 8
    return 0
