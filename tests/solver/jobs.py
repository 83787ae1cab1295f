#!/usr/bin/env python3
"""The jobs whose lengths the solver gives: the same ones on every run, none with a reason to refuse it.

Run as a program, it prints them one after another."""
import random

# only `random()` is used, whose numbers are the same for a seed in every version of Python 3
chance = random.Random(10)
POLICIES = ["EXACT", "RETURN", "TRAVERSAL", "MIDPOINT", "COMPOSITE"]


def between(low, high):
    return low + int(chance.random() * (high - low + 1))


def one_of(items):
    return items[between(0, len(items) - 1)]


def shuffled(items):
    return [item for _, item in sorted((chance.random(), item) for item in items)]


def quantities():
    """The quantities of a list of weight at most 256."""
    weight, found = 1, []
    for _ in range(between(1, 8)):
        room = 256 // weight - 1
        if room >= 1:
            found.append(between(1, min(room, one_of([1, 2, 5, 255]))))
            weight *= found[-1] + 1
    return found


def stocks(quantity, parts):
    """So many stocks that make up the quantity: with nothing to spare, or with more than is wanted."""
    if one_of([True, False]):
        cuts = [0] + sorted(shuffled(range(1, quantity))[: parts - 1]) + [quantity]
        return [high - low for low, high in zip(cuts, cuts[1:])]
    found = [between(1, quantity) for _ in range(parts)]
    return [min(255, found[0] + max(0, quantity - sum(found)))] + found[1:]


def text(layout, stock, orders, hours=()):
    """The job file whose sections have these lines of fields; the hours are the sections M and H, or none."""
    lines = []
    for letter, section in ("L", layout), ("S", stock), *hours, ("D", orders):
        lines += [(letter, len(section)), *section]
    return "".join(" ".join(map(str, fields)) + "\n" for fields in lines).encode()


def job(policy, aisles, cells, most_listed, others, sizes):
    front, pitch, back, width = sizes
    places = shuffled((j, i) for j in range(1, aisles + 1) for i in range(1, cells + 1))
    room = min(most_listed, len(places))
    wanted = quantities()[:room]
    articles = shuffled(range(1, 30))[: len(wanted)]
    stock = []
    for n, (article, quantity) in enumerate(zip(articles, wanted)):
        spare = room - len(stock) - (len(wanted) - n)
        for held in stocks(quantity, 1 + between(0, min(spare, one_of([2, 4, 16])))):
            stock.append((*places.pop(), article, held))
    for _ in range(min(others, len(places))):
        stock.append((*places.pop(), between(30, 65535), between(1, 255)))
    layout = (aisles, cells, front, pitch, back, width, between(1, aisles), policy)
    return text([layout], shuffled(stock), list(zip(articles, wanted)))


def sizes():
    """f p b w: all alike, all small, any, or the largest."""
    return one_of([
        (1, 1, 1, 1),
        (between(1, 3), between(1, 3), between(1, 3), between(1, 6)),
        (between(1, 60), between(1, 30), between(1, 60), between(1, 400)),
        (60, 30, 60, 400),
    ])


def some(count, aisles, cells, most_listed, others, policies=POLICIES):
    for _ in range(count):
        for policy in policies:
            yield job(policy, between(*aisles), between(*cells), most_listed, between(*others), sizes())


def posted(job, bay, post):
    """The job with a post of that width after every so many cells."""
    layout, rest = job.split(b"\n", 2)[1:]
    return b"L 2\n%s\n%d %d\n%s" % (layout, bay, post, rest)


def with_posts(jobs):
    """The jobs with posts: k is 1, a divisor of the number of cells, one less than it, itself, more; u is 10, 1 to 9, 0."""
    for n, job in enumerate(jobs):
        cells = int(job.split()[3])
        divisor = max(bay for bay in range(1, cells // 2 + 1) if cells % bay == 0)
        bay = [1, divisor, cells - 1, cells, between(min(24, cells + 1), 24)][n // 5 % 5]
        yield posted(job, bay, [10, between(1, 9), 0][n // 5 % 3])


def beside(jobs):
    """Each job without posts, and with posts of no width."""
    for job in jobs:
        yield from (job, posted(job, between(1, 24), 0))


def front_cells(cells, front, pitch, back, bay, post):
    """How many cells of an aisle are no nearer the back crossing than the front one."""
    places = [front + i * pitch + i // bay * post for i in range(cells)]
    return sum(2 * place <= places[-1] + back for place in places)


def over_the_middle(count):
    """Jobs under MIDPOINT with articles in the end aisles and between them, and posts that move a cell over the middle."""
    while count:
        aisles, cells = between(3, 6), between(4, 8)
        front, pitch, back, width = between(1, 60), between(1, 5), between(1, 60), between(1, 400)
        bay, post = between(1, cells - 1), between(1, 10)
        if front_cells(cells, front, pitch, back, bay, post) == front_cells(cells, front, pitch, back, bay, 0):
            continue
        count -= 1
        inner = shuffled((j, i) for j in range(2, aisles) for i in range(1, cells + 1))
        places = [(1, between(1, cells)), (aisles, between(1, cells)), *inner[:6]]
        layout = (aisles, cells, front, pitch, back, width, between(1, aisles), "MIDPOINT")
        stock = [(*place, article, 1) for article, place in enumerate(places, 1)]
        yield text([layout, (bay, post)], stock, [(article, 1) for _, _, article, _ in stock])


def largest(job):
    """The job under LARGEST in the place of its policy."""
    head, layout, rest = job.split(b"\n", 2)
    return b"\n".join([head, layout.rsplit(b" ", 1)[0] + b" LARGEST", rest])


def many_stops(count):
    """Jobs under LARGEST with listed cells all over the aisles, at even and uneven distances, some of them with posts."""
    for n in range(count):
        aisles, cells = between(3, 5), between(4, 10)
        places = shuffled((j, i) for j in range(1, aisles + 1) for i in range(1, cells + 1))[: between(aisles, 4 * aisles)]
        articles = between(1, 4)
        stock = [(*place, 1 + k % articles, between(1, 3)) for k, place in enumerate(places)]
        held = [sum(quantity for _, _, article, quantity in stock if article == 1 + k) for k in range(articles)]
        orders = [(1 + k, between(1, min(held[k], [255, 15, 5, 3][articles - 1]))) for k in range(articles)]
        front, pitch, back, width = sizes()
        layout = (aisles, cells, front, pitch, back, width, between(1, aisles), "LARGEST")
        made = text([layout], shuffled(stock), orders)
        yield posted(made, between(1, cells), between(1, 10)) if n % 3 == 0 else made


def far_ends(policy):
    """The largest store, with an article to fetch from the back of every aisle: under RETURN the longest tour that a job can have."""
    stock = [(aisle, 24, 7, 1) for aisle in range(1, 17)]
    return text([(16, 24, 60, 30, 60, 400, 1, policy), (1, 10)], stock, [(7, 16)])


def sections(job):
    """The lines of fields of a job's sections L, S and D; all fields are numbers but the policy word."""
    lines = [[int(word) if word.isdigit() else word for word in line.split()] for line in job.decode().splitlines()]
    found = []
    while lines:
        count = lines[0][1]
        found.append(lines[1 : 1 + count])
        lines = lines[1 + count :]
    return found


def widened(job, more, depot_among_them=False, full=False):
    """The job's sections in a store with more aisles among its own, where the list's articles lie too, and the numbers of those aisles."""
    layout, stock, orders = sections(job)
    (aisles, cells, *sizes, depot, policy), *posts = layout
    own = sorted(shuffled(range(1, aisles + more + 1))[:aisles])
    others = [aisle for aisle in range(1, aisles + more + 1) if aisle not in own]
    stock = [(own[aisle - 1], *rest) for aisle, *rest in stock]
    for aisle in others:
        for cell in shuffled(range(1, cells + 1))[: cells if full else between(1, 8)]:
            stock.append((aisle, cell, one_of(orders)[0] if orders else between(1, 30), between(1, 255)))
    depot = one_of(others) if depot_among_them else own[depot - 1]
    return [(aisles + more, cells, *sizes, depot, policy), *posts], shuffled(stock), orders, others


def windows(minute, is_open):
    """Windows that open an aisle at the minute, or do not: they start or end there, touch, overlap, or lie before and after."""
    start, end = between(0, minute), between(minute + 1, 1440)
    around = shuffled([(start, end), (minute, end), (start, minute + 1), (minute, minute + 1), (0, 1440)])[: between(1, 2)]
    apart = [(start, minute), (minute + 1, end)] if one_of([True, False]) else [(0, start), (start, minute)]
    found = [(low, high) for low, high in (around if is_open else []) + apart if low < high]
    return found or [(0, minute) if minute else (1, 1440)]


def with_hours(jobs, more, depot_among_them=False, all_open=False, full=False):
    """The jobs in stores with so many more aisles, which are shut at the minute; some of their own aisles have windows, and are open."""
    for job in jobs:
        minute = one_of([0, 1439, between(1, 1438), between(1, 1438)])
        layout, stock, orders, others = widened(job, between(*more), depot_among_them, full)
        aisles = [aisle for aisle in range(1, layout[0][0] + 1) if aisle in others or all_open or one_of([True, False])]
        lines = [(aisle, *window) for aisle in aisles for window in windows(minute, all_open or aisle not in others)]
        while full and len(lines) < 64:
            aisle = one_of(aisles)
            lines += [(aisle, *window) for window in windows(minute, aisle not in others)][: 64 - len(lines)]
        yield text(layout, stock, orders, [("M", [(minute,)]), ("H", shuffled(lines))])


def at_any_minute(jobs):
    """The jobs with a minute and no windows."""
    for job in jobs:
        yield text(*sections(job), [("M", [(between(0, 1439),)]), ("H", [])])


def a_minute_later(jobs, more):
    """Each job in a store with so many more aisles, in the last minute in which they are open, and in the first in which they are shut."""
    for job in jobs:
        layout, stock, orders, others = widened(job, between(*more), full=True)
        minute = between(1, 1439)
        lines = [(aisle, between(0, minute - 1), minute) for aisle in others]
        for now in minute - 1, minute:
            yield text(layout, stock, orders, [("M", [(now,)]), ("H", lines)])


def pieces(counts, spare=0):
    """Jobs under TRAVERSAL that want so many pieces, one in an aisle; so many more aisles hold one too. Each third job has posts."""
    for n, count in enumerate(counts):
        aisles, cells = min(16, count + spare + between(0, 2)), between(2, 12)
        articles = between(1, min(count, 3))
        held = sorted(shuffled(range(1, aisles + 1))[: count + spare])
        stock = [(aisle, between(1, cells), 1 + k % articles, 1) for k, aisle in enumerate(held)]
        orders = [(1 + k, len(range(k, count, articles))) for k in range(articles)]
        front, pitch, back, width = sizes()
        made = text([(aisles, cells, front, pitch, back, width, 1, "TRAVERSAL")], shuffled(stock), orders)
        yield posted(made, between(1, cells), between(1, 10)) if n % 3 == 0 else made


def at_doors(jobs):
    """Each job with the depot at the left end, at the last aisle that is not right of the middle, at the next one, and at the right end."""
    for job in jobs:
        head, layout, rest = job.split(b"\n", 2)
        aisles, *numbers, _, policy = layout.split()
        middle, end = (int(aisles) + 1) // 2, int(aisles)
        for depot in sorted({1, middle, min(middle + 1, end), end}):
            yield b"\n".join([head, b" ".join([aisles, *numbers, b"%d" % depot, policy]), rest])


def equals(policy, aisles, cells, listed, others=0):
    """A job in a store where many tours are equally long: f, b and w are one p or two, and one or two articles lie all over it."""
    aisles, cells, listed, pitch = between(*aisles), between(*cells), between(*listed), between(1, 30)
    front, back, width = (pitch * between(1, 2) for _ in range(3))
    places = shuffled((j, i) for j in range(1, aisles + 1) for i in range(1, cells + 1))
    articles = one_of([1, 1, 2])
    stock = [(*place, 1 + k % articles, between(1, 3)) for k, place in enumerate(places[:listed])]
    held = [sum(pieces for _, _, article, pieces in stock if article == 1 + k) for k in range(articles)]
    part = one_of([1, 2])
    orders = [(1 + k, between(1, min(15, held[k] // part))) for k in range(articles)]
    stock += [(*place, between(30, 65535), between(1, 255)) for place in places[listed:][:others]]
    return text([(aisles, cells, front, pitch, back, width, between(1, aisles), policy)], shuffled(stock), orders)


def sided(jobs, side="BACK"):
    """The jobs with a third line in the L section; those without posts get posts of no width."""
    for job in jobs:
        head, layout, rest = job.split(b"\n", 2)
        posts, rest = rest.split(b"\n", 1) if head == b"L 2" else (b"%d 0" % between(1, 24), rest)
        yield b"\n".join([b"L 3", layout, posts, side.encode(), rest])


def turned(job):
    """The job turned front to back, where posts have no width: cells counted from the back, f and b exchanged, FRONT and BACK too."""
    head, layout, *lines = job.split(b"\n")
    aisles, cells, front, pitch, back, *others = layout.split()
    side = b"FRONT" if head == b"L 3" and lines[1] == b"BACK" else b"BACK"
    at = lines.index(next(line for line in lines if line.startswith(b"S "))) + 1
    end = at + int(lines[at - 1].split()[1])
    stock = [line.split() for line in lines[at:end]]
    lines[at:end] = [b" ".join([aisle, b"%d" % (int(cells) + 1 - int(cell)), *rest]) for aisle, cell, *rest in stock]
    posts = lines[0] if head != b"L 1" else b"1 0"
    return b"\n".join([b"L 3", b" ".join([aisles, cells, back, pitch, front, *others]), posts, side, *lines[at - 1 :]])


def and_turned(jobs):
    """Each job, and the job turned front to back."""
    for job in jobs:
        yield from (job, turned(job))


def drawn(seeds, make):
    """The jobs made from rows of seeds; in a row the policies take turns."""
    for row in seeds:
        for policy, seed in zip(SIX, row, strict=True):
            chance.seed(seed)
            yield make(policy)


JOBS = [
    *some(30, (1, 4), (1, 5), 12, (0, 3)),
    *some(20, (3, 9), (3, 12), 14, (0, 12)),
    *some(20, (10, 16), (12, 24), 16, (0, 20)),
    *some(6, (16, 16), (24, 24), 18, (384, 384)),
    # no listed cell, so that the list is empty
    *some(2, (1, 16), (1, 24), 0, (0, 0)),
    *some(1, (1, 1), (1, 1), 0, (1, 1)),
    *some(1, (1, 1), (2, 24), 0, (0, 24)),
    *some(5, (1, 9), (1, 12), 0, (1, 40)),
    *some(5, (10, 16), (12, 24), 0, (1, 383)),
    *some(2, (16, 16), (24, 24), 0, (384, 384)),
    # posts
    *with_posts([
        *some(8, (1, 4), (2, 6), 12, (0, 3)),
        *some(4, (3, 9), (4, 12), 14, (0, 12)),
        *some(3, (10, 16), (12, 24), 16, (0, 20)),
    ]),
    *(posted(job(policy, 16, 24, 18, 384, (60, 30, 60, 400)), 1, 10) for policy in POLICIES),
    *with_posts(some(1, (1, 9), (2, 24), 0, (1, 40))),
    *beside(some(2, (2, 6), (3, 12), 12, (0, 12))),
    *over_the_middle(16),
    *map(far_ends, ["EXACT", "RETURN", "TRAVERSAL", "COMPOSITE"]),
]
# LARGEST (request #104): every job under MIDPOINT once more, and jobs of its own
JOBS += [*map(largest, (job for job in JOBS if b" MIDPOINT\n" in job)), *many_stops(60)]
# hours (request #106)
SIX = [*POLICIES, "LARGEST"]
JOBS += [
    *with_hours(some(4, (1, 3), (1, 5), 10, (0, 3), SIX), (1, 2)),
    *with_hours(some(2, (3, 7), (3, 12), 14, (0, 12), SIX), (1, 4)),
    *with_hours(some(1, (8, 12), (12, 24), 16, (0, 20), SIX), (2, 4)),
    *with_hours(with_posts(some(2, (2, 6), (2, 12), 12, (0, 12), SIX)), (1, 3)),
    *with_hours(some(2, (1, 5), (2, 8), 10, (0, 6), SIX), (1, 3), depot_among_them=True),
    *with_hours(some(1, (1, 6), (2, 8), 10, (0, 6), SIX), (1, 1), all_open=True),
    *with_hours(some(1, (1, 9), (2, 12), 0, (1, 40), SIX), (1, 4)),
    *with_hours((posted(job(policy, 12, 24, 18, 384, (60, 30, 60, 400)), 1, 10) for policy in SIX), (4, 4), full=True),
    *at_any_minute(some(1, (1, 6), (2, 8), 10, (0, 6), SIX)),
    *a_minute_later(some(3, (1, 4), (2, 8), 10, (0, 6), SIX), (1, 2)),
]
# TRAVERSAL with the depot left, right and near the middle (request #107)
JOBS += at_doors([
    *pieces(range(1, 9)),
    *pieces([2, 3, 3, 4, 5, 5, 7], 2),
    *with_hours(pieces([2, 3, 3, 5]), (1, 3)),
    *some(3, (3, 9), (3, 12), 14, (0, 12), ["TRAVERSAL"]),
    *some(2, (10, 16), (12, 24), 16, (0, 20), ["TRAVERSAL"]),
    *pieces([9, 11, 13, 15]),
])

# fewer aisles between equals (request #108): the seeds are chosen so that in nearly all jobs the first of the shortest plans in document
# 01's order enters more aisles than another one
JOBS += [
    *drawn(
        [
            [391, 58, 23, 3903, 105, 389],
            [18, 182, 368, 1459, 26, 1169],
            [446, 646, 507, 3551, 186, 2256],
            [556, 226, 596, 1586, 137, 1636],
            [548, 727, 1080, 4042, 631, 3729],
        ],
        lambda policy: equals(policy, (2, 4), (2, 5), (5, 10)),
    ),
    *drawn(
        [
            [165, 1143, 1424, 26, 560, 741],
            [16, 80, 52, 204, 55, 200],
            [323, 531, 398, 567, 1284, 982],
            [526, 151, 78, 304, 68, 240],
        ],
        lambda policy: equals(policy, (5, 8), (4, 10), (8, 14)),
    ),
    *drawn(
        [[1255, 2936, 720, 1001, 2457, 560], [321, 178, 214, 271, 460, 222], [1688, 1667, 939, 740, 738, 236]],
        lambda policy: posted(equals(policy, (3, 6), (3, 8), (6, 12)), between(1, 2), between(1, 10)),
    ),
    *drawn(
        [[751, 446, 78, 714, 1101, 471], [105, 48, 130, 297, 257, 256]],
        lambda policy: next(with_hours([equals(policy, (2, 5), (2, 6), (5, 10))], (1, 2))),
    ),
    *drawn(
        [[435, 446, 1223, 153, 714, 105]],
        lambda policy: next(with_hours([equals(policy, (2, 5), (2, 6), (5, 10))], (1, 2), depot_among_them=True)),
    ),
    *at_doors(drawn([[104, 394, 757, 262, 233, 128]], lambda policy: equals(policy, (4, 6), (3, 6), (6, 12)))),
    *drawn(
        [[34, 1121, 133, 658, 1094, 397], [38, 110, 29, 256, 59, 101], [386, 141, 268, 1030, 927, 212]],
        lambda policy: equals(policy, (16, 16), (24, 24), (8, 14), 384),
    ),
]

# the depot at the back (request #109)
chance.seed(109)
JOBS += [
    *sided(some(4, (1, 4), (1, 5), 12, (0, 3), SIX)),
    *sided(some(2, (3, 9), (3, 12), 14, (0, 12), SIX)),
    *sided(some(1, (10, 16), (12, 24), 16, (0, 20), SIX)),
    *sided(job(policy, 16, 24, 18, 384, (60, 30, 60, 400)) for policy in SIX),
    *sided(with_posts(some(2, (2, 6), (2, 12), 12, (0, 12), SIX))),
    *sided(over_the_middle(6)),
    *sided(map(largest, over_the_middle(6))),
    *sided(many_stops(12)),
    *sided(at_doors(pieces([2, 3, 4, 5, 7]))),
    *sided(equals(policy, (2, 5), (2, 6), (5, 10)) for policy in SIX for _ in range(3)),
    *sided(some(1, (1, 9), (2, 12), 0, (1, 40), SIX)),
    *sided(some(1, (2, 6), (2, 12), 12, (0, 12), SIX), "FRONT"),
    *and_turned(some(3, (1, 6), (1, 8), 12, (0, 6), SIX)),
    *and_turned(sided(equals(policy, (2, 5), (2, 6), (5, 10)) for policy in SIX for _ in range(2))),
    *sided(with_hours(some(2, (1, 5), (2, 8), 10, (0, 6), SIX), (1, 3))),
    *sided(with_hours(some(1, (1, 5), (2, 8), 10, (0, 6), SIX), (1, 3), depot_among_them=True)),
    *and_turned(with_hours(some(1, (1, 4), (2, 6), 10, (0, 6), SIX), (1, 2), depot_among_them=True)),
]

if __name__ == "__main__":
    print(b"".join(JOBS).decode(), end="")
