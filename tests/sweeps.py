"""Makes scripts between the limits of the language and of the table, of each size up to the limit for lists, tables and what the end
closes, and else of each power of two, one less and one more, and the limit. model/model.py writes the texts, which the order of chains
doesn't change."""
from tests.limits import BYTES, CHAINS, ENTRIES, FILES, LARGEST_TAG, MEMBERS, SCRIPT_BYTES, SLOTS, lines, linked
from model.model import play

A = "file a.txt 68656c6c6f"
REQUESTS = CHAINS * MEMBERS
# every size of a list
EACH_SIZE = range(1, SLOTS + 1)
# how many files the requests of a submission may close at most
WEIGHT = REQUESTS * ENTRIES
# played by each number of workers, which decides how a table is shared
BY_WORKERS = ("openings", "chains", "heavy_chains", "requests")


def sizes(limit, least=1):
    """Each power of two up to the limit, one less and one more, and the limit."""
    powers = (1 << bit for bit in range(limit.bit_length() + 1))
    near = {it + step for it in powers for step in (-1, 0, 1)}
    return sorted(it for it in near | {limit} if least <= it <= limit)


def hexed(count):
    """The bytes of a file, so that no two places beside each other have the same."""
    return "".join(f"{(it * 7 + it // 256) % 256:02x}" for it in range(count))


def in_chains(requests):
    return [it for at in range(0, len(requests), MEMBERS) for it in linked(*requests[at : at + MEMBERS])]


def zeros(count):
    return ",".join(["0"] * count)


def tags(first, places=()):
    """The word of tags after a list, for places that have a file or none: it is empty without places."""
    return " " + ",".join(str(first + it if has_file else 0) for it, has_file in enumerate(places)) if places else ""


def lists():
    """A list of each size, each third entry without a file, is registered, updated and unregistered; each second has tags."""
    for count in EACH_SIZE:
        files, has_tags = [it % 3 != 2 for it in range(count)], count % 2
        yield f"register {','.join('0' if it else '-1' for it in files)}{tags(7, files * has_tags)}"
        yield f"regupdate 0 {zeros(count)}{tags(LARGEST_TAG - count, [True] * count * has_tags)}"
        yield "unregister"


def tagged_tables():
    """A sparse table of each size is filled with tagged files; a submission closes every second one, and the table is unregistered."""
    for count in sizes(SLOTS):
        yield from (f"sparse {count}", f"regupdate 0 {zeros(count)}{tags(1, [True] * count)}")
        yield from (*(f"close {it}" for it in range(0, count, 2)), "submit", "unregister")


def ends(count):
    """A table of so many files is there at the end of the script. They have tags if they are an odd number."""
    return A, f"register {zeros(count)}{tags(1, [True] * count * (count % 2))}"


def tables():
    """A sparse table of each size is filled, an open at any slot finds none free, each file is read, and the table is unregistered."""
    for count in EACH_SIZE:
        yield from (f"sparse {count}", *(f"open a.txt at {it}" for it in range(count)), "submit")
        yield from ("open a.txt any", *(f"read {it} 0 5" for it in range(count)), "submit", "unregister")


def files():
    """Files of each size, each read whole, past its end and in its last byte."""
    yield from (*(f"file f{it} {hexed(it)}" for it in sizes(BYTES)), "sparse 1")
    for count in sizes(BYTES):
        yield from (*linked(f"open f{count} at 0", f"read 0 0 {count}", f"read 0 {count - 1} 4096", "close 0"), "submit")


def reads():
    """Reads of each length of a file of 4,096 bytes, from its begin and from past its end."""
    yield from (f"file b.txt {hexed(BYTES)}", "register 1")
    for count in sizes(BYTES):
        yield from (f"read 0 0 {count}", f"read 0 {BYTES - count} {count}", "submit")


def openings():
    """A table of each size with a file at each slot is shared for no chain, one, 16 and 300."""
    for count in sizes(SLOTS):
        yield f"register {zeros(count)}"
        for played in (0, 1, 16, 300):
            yield from (*["read 0 0 5"] * played, "submit")
        yield "unregister"


def chains(count):
    """So many chains of one open each. The first 256 fill the table, and the others name no file."""
    return A, "sparse 256", *(f"open a.txt at {it}" if it < SLOTS else "open no.txt any" for it in range(count)), "submit"


def heavy_chains(count):
    """So many chains, of which the first one installs 64 files: so many numbers are prepared for each of them."""
    updates = linked(*(f"update {at} {zeros(ENTRIES)}" for at in range(0, 4 * ENTRIES, ENTRIES)))
    return A, "sparse 64", *updates, *["read 64 0 0"] * (count - 1), "submit"


def requests(count):
    """So many requests in full chains: reads of nothing of a file that is there."""
    return A, "register 0", *in_chains(["read 0 0 0"] * count), "submit"


def weights(count):
    """Updates that keep so many files, in full chains: a submission has room for as many closes."""
    kept = [ENTRIES] * (count // ENTRIES) + [count % ENTRIES] * (count % ENTRIES > 0)
    return "sparse 256", *in_chains([f"update 0 {','.join(['-2'] * it)}" for it in kept]), "submit"


def waiting(count):
    """So many requests wait for their submit, which is refused where they are more chains than 1,023."""
    text = [f"submit refused too-many-chains {CHAINS + 1}"] if count > CHAINS else [f"1.{it + 1}.1 -6" for it in range(count)]
    return lines(*["close 0"] * count, "submit"), lines(*text)


def catalogues(count):
    """So many files, of which the last one is opened."""
    made = (f"file f{it} {it % 256:02x}" for it in range(count))
    return *made, "sparse 1", f"open f{count - 1} at 0 link", "read 0 0 1", "submit"


def sweeps():
    """Each script: its name, the script and the text."""
    scripts = [(it.__name__, (A, *it())) for it in (lists, tables, tagged_tables, files, reads, openings)]
    by_size = [(ends, EACH_SIZE), (catalogues, sizes(FILES)), (chains, sizes(CHAINS)), (heavy_chains, sizes(CHAINS)),
               (requests, sizes(REQUESTS)), (weights, sizes(WEIGHT))]
    scripts += [(f"{made.__name__}_{count}", made(count)) for made, counts in by_size for count in counts]
    for name, script in scripts:
        yield name, lines(*script), play(lines(*script).encode())[0]
    # these are too long for the model
    for count in sizes(SCRIPT_BYTES // len("close 0\n") - 1):
        yield f"waiting_{count}", *waiting(count)
