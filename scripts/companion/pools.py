"""Pools, the files of free pages: docs/FORMATS.md has their format."""
from companion import maps
from companion.numbers import END_PAGE, PAGE, common
from companion.refusals import Wrong
from companion.written import to_write

MOST_POOL = 262144
# The pages of a line, where the highest memory comes first: 2 MiB. A pool is drawn in the order of its text, and the pages of
# a line rise; a line for each page would be more text than a pool file may have.
LINE = 512


def lines_of_run(first, end, is_highest_first):
    """The ranges (first, end) of a run in the order in which they are to be drawn. A run may have far more of them than a
    pool takes, so each is made when it is asked for."""
    while is_highest_first and first < end:
        low = max(first, (end - 1) // LINE * LINE)
        yield low, end
        end = low
    if first < end:
        yield first, end


def pool_lines(runs, is_highest_first):
    """The lines of a pool of these runs, as many as a pool file can have, and the number of their pages. Either the lowest
    memory comes first, or the highest: then each line has at most 2 MiB."""
    left, room, lines = MOST_POOL, maps.MOST_TEXT, []
    for run in sorted(runs, reverse=is_highest_first):
        for first, end in lines_of_run(*run, is_highest_first):
            count = min(end - first, left)
            if not count:
                return lines, MOST_POOL - left
            low = end - count if is_highest_first else first
            line = f"{low:x}-{low + count - 1:x}\n" if count > 1 else f"{low:x}\n"
            if len(line) > room:
                return lines, MOST_POOL - left
            lines.append(line)
            left, room = left - count, room - len(line)
    return lines, MOST_POOL - left


def write_pool(path, runs, is_highest_first):
    """Writes the pool, and answers the number of its lines and of its pages."""
    lines, count = pool_lines(runs, is_highest_first)
    with to_write(path, True) as out:
        out.writelines(lines)
    return len(lines), count


def read_pool(path):
    """The runs (first, last) of a pool file, in its order."""
    with open(path, encoding="utf-8", errors="surrogateescape", newline="") as file:
        text = file.read()
    found = []
    for number, line in maps.lines_of(text):
        first, hyphen, last = line.partition("-")
        last = last if hyphen else first
        if not maps.is_number(first) or not maps.is_number(last):
            raise Wrong(f"{path}: line {number} is neither a page number nor first-last in hexadecimal")
        if int(last, 16) < int(first, 16) or int(last, 16) >= END_PAGE:
            raise Wrong(f"{path}: line {number} ends below its start, or names a page that is not below {END_PAGE:#x}")
        found.append((int(first, 16), int(last, 16)))
    return found


def why_not_free(page, rows):
    """Why a page is not free RAM."""
    first, last = page * PAGE, page * PAGE + PAGE - 1
    met = [what for low, high, what in rows if what in maps.TAKEN and low <= last and first <= high]
    if met:
        return f"taken by {met[-1]}"
    within = any(what == maps.RAM and low <= first and last <= high for low, high, what in rows)
    return "" if within else f"no {maps.RAM}"


def check_pool(pool, rows):
    """The runs (first, last, why) of pool pages that are not free RAM, rising."""
    free, found = maps.free_runs(rows), []
    borders = sorted({edge // PAGE for row in rows for edge in (row[0], row[0] + PAGE - 1, row[1], row[1] + 1)})
    for first, last in sorted(pool):
        begin = first
        for low, end in [*common([(first, last + 1)], free), (last + 1, last + 1)]:
            cuts = [begin, *(cut for cut in borders if begin < cut < low), low]
            for at, stop in zip(cuts, cuts[1:]):
                if at < stop:
                    why = why_not_free(at, rows)
                    if found and found[-1][1] + 1 == at and found[-1][2] == why:
                        found[-1] = (found[-1][0], stop - 1, why)
                    else:
                        found.append((at, stop - 1, why))
            begin = end
    return found
