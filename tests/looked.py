"""Request #105's number of records that the stock test looks at, counted on its own from a job's text; those of aisles that are shut
(#106) are looked at and hold nothing."""
from itertools import accumulate

from reading import open_stock, read, refusal


def looked(job):
    """What the program `looked` prints: the number, or `-` where a refusal before 8 stops the job."""
    if refusal(job) not in (0, 8):
        return b"-\n"
    _, _, stock, hours, orders = read(job)
    total = 0
    for article, quantity in orders:
        # what the first n records hold, for each n from 0
        held = accumulate([record[3] if record[2] == article else 0 for record in open_stock(stock, hours)], initial=0)
        enough = [n for n, sum_held in enumerate(held) if sum_held >= quantity]
        total += enough[0] if enough else len(stock)
        if not enough:
            break
    return b"%d\n" % total
