"""Request #103's clipboard page, made on its own from a job's text and its sheet's text."""


def lines_of(sheet, letter):
    """The lines of a section of a sheet, as lists of words."""
    lines = sheet.decode().splitlines()
    at = 0
    while not lines[at].startswith(letter + " "):
        at += 1 + int(lines[at].split()[1])
    return [line.split() for line in lines[at + 1 : at + 1 + int(lines[at].split()[1])]]


def cells_reached(job, sheet):
    """For each point of the walk, as aisle and height, the number of the first step that ends there."""
    lines = job.split(b"\n")
    cells, aisle = (int(lines[1].split()[at]) for at in (1, 6))
    # the depot is at the front, or at the back where the third line of the L section says so (#109)
    height = cells + 1 if lines[0] == b"L 3" and lines[3] == b"BACK" else 0
    first, steps = {}, 0
    for letter, count in lines_of(sheet, "W"):
        for _ in range(int(count)):
            aisle += {"L": -1, "R": 1}.get(letter, 0)
            height += {"F": -1, "B": 1}.get(letter, 0)
            steps += 1
            first.setdefault((aisle, height), steps)
    return first


def page(job, sheet):
    """The page of a served job; of a refused one what the program prints."""
    if sheet.startswith(b"R"):
        return sheet
    first = cells_reached(job, sheet)
    picks = [[int(word) for word in line] for line in lines_of(sheet, "P")]
    picks.sort(key=lambda pick: first[pick[0], pick[1]])
    return "".join(f"{aisle:2}-{cell:2} {taken:3}{'.' * 10}{article:5}\n" for aisle, cell, article, taken in picks).encode()
