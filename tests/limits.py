"""Makes scripts at the limits of the language and of the table, each with its text. Texts are derived by hand here, neither from the program
nor from model/model.py. tests/check-limits plays them on the program, and tests/compare on the program and the model."""

SCRIPT_BYTES = 4_194_304
LARGEST_TAG = 18_446_744_073_709_551_615
SLOTS, CHAINS, MEMBERS, ENTRIES, FILES, BYTES = 256, 1023, 16, 16, 256, 4096


def lines(*parts):
    return "".join(f"{it}\n" for it in parts)


def linked(*requests):
    return [f"{it} link" for it in requests[:-1]] + [requests[-1]]


def full_table():
    """Every slot is filled, read and emptied, and the last one is filled again by an open at any slot."""
    slots = range(SLOTS)
    script = ["file a.txt 68656c6c6f", "sparse 256"]
    script += [*(f"open a.txt at {it}" for it in slots), "submit"]
    script += ["open a.txt any", *(f"read {it} 0 5" for it in slots), "submit"]
    script += ["close 255", "open a.txt any", "open a.txt at 256", "close 256", "read 256 0 0", "update 256 0", "submit"]
    script += [*(f"close {it}" for it in slots), "submit"]
    text = ["sparse 0", *(f"1.{it + 1}.1 0" for it in slots)]
    text += ["2.1.1 -23", *(f"2.{it + 2}.1 5 68656c6c6f" for it in slots)]
    text += ["3.1.1 0", "3.2.1 255", "3.3.1 -22", "3.4.1 -22", "3.5.1 -9", "3.6.1 -22", "closed 1.256.1.0 a.txt"]
    text += [f"4.{it + 1}.1 0" for it in slots]
    text += [*(f"closed 1.{it + 1}.1.0 a.txt" for it in slots if it < 255), "closed 3.2.1.0 a.txt"]
    return lines(*script), lines(*text)


def heaviest_submission():
    """1,023 chains of 16 updates of 16 entries: all 65,728 file numbers are given, and 65,472 files are closed."""
    install, empty, keep = (",".join([it] * ENTRIES) for it in ("0", "-1", "-2"))
    chain = linked(
        *(f"update {at} {install}" for at in (0, 16, 32, 240)),
        *(f"update {at} {empty}" for at in (0, 16, 32, 240)),
        *(f"update {at} {keep}" for at in (0, 80, 160, 240)),
        *(f"update {at} {empty}" for at in (0, 80, 160, 240)),
    )
    chains = range(1, CHAINS + 1)
    text = ["sparse 0", *(f"1.{c}.{m} 16" for c in chains for m in range(1, MEMBERS + 1))]
    text += [f"closed 1.{c}.{m}.{e} a.txt" for c in chains for m in range(1, 5) for e in range(ENTRIES)]
    return lines("file a.txt -", "sparse 256", *chain * CHAINS, "submit"), lines(*text)


def full_catalogue():
    """256 files of 4,096 bytes each, with names of 32 letters that differ in the last ones; the last of them is read."""
    files = [f"{'n' * 29}{it:03}" for it in range(FILES)]
    script = [f"file {name} {f'{nth:02x}' * BYTES}" for nth, name in enumerate(files)]
    script += ["sparse 1", f"open {files[-1]} at 0", "submit", f"read 0 {BYTES - 1} 1", "read 0 0 4096", "submit"]
    text = ["sparse 0", "1.1.1 0", "2.1.1 1 ff", f"2.2.1 4096 {'ff' * BYTES}", "teardown", f"closed 1.1.1.0 {files[-1]}"]
    return lines(*script), lines(*text)


def large_text(members):
    """1,023 chains of reads of 4,096 bytes: a text of 8 million bytes, or of 134 million where chains are full."""
    script = [f"file a.txt {'61' * BYTES}", "sparse 1", "open a.txt at 0", "submit"]
    script += linked(*["read 0 0 4096"] * members) * CHAINS + ["submit"]
    text = ["sparse 0", "1.1.1 0"]
    text += [f"2.{c}.{m} 4096 {'61' * BYTES}" for c in range(1, CHAINS + 1) for m in range(1, members + 1)]
    return lines(*script), lines(*text, "teardown", "closed 1.1.1.0 a.txt")


def large_submission(chains):
    """Full chains: five times an open at slot 0, a read of its file and a close, and an open that the next chain replaces."""
    chain = linked(*["open a.txt at 0", "read 0 0 5", "close 0"] * 5, "open a.txt at 0")
    return lines("file a.txt 68656c6c6f", "sparse 1", *chain * chains, "submit")


def longest_script():
    """A script of 4,194,304 bytes: as many commands as it has room for, and empty lines."""
    count = SCRIPT_BYTES // len("sparse 0\n")
    return "sparse 0\n" * count + "\n" * (SCRIPT_BYTES % len("sparse 0\n")), "sparse -22\n" * count


def too_many_submissions():
    """65,535 empty submissions, and then one that the ring refuses."""
    return "submit\n" * 65_536, "submit refused too-many-submissions\n"


def open_after_open(count, update_behind):
    """So many submissions of one open at one slot: more than a table that stays open plays. After one the ring's table is updated."""
    script, text, last = ["file a.txt 68656c6c6f", "sparse 1"], ["sparse 0"], None
    for s in range(1, count + 1):
        script += ["open a.txt at 0", "submit"]
        text += [f"{s}.1.1 0", *([f"closed {last} a.txt"] if last else [])]
        last = f"{s}.1.1.0"
        if s == update_behind:
            script += ["regupdate 0 0"]
            text += ["regupdate 1", f"closed {last} a.txt"]
            last = "r1.0"
    return lines(*script), lines(*text, "teardown", f"closed {last} a.txt")


def submissions_65535():
    """As many as a ring accepts, and one more."""
    script, text = open_after_open(65_535, 0)
    return script + "submit\n", text.replace("teardown\n", "submit refused too-many-submissions\nteardown\n")


def too_many_registrations():
    """65,535 lists are registered, and then one that the ring refuses."""
    script = "file a.txt -\n" + "register 0\nunregister\n" * 65_535 + "register 0\n"
    return script, "".join(f"register 0\nunregister 0\nclosed r{k}.0 a.txt\n" for k in range(1, 65_536)) + "register -11\n"


def all_updates():
    """Registrations and updates of the ring are counted together."""
    script = "file a.txt -\nregister 0\n" + "regupdate 0 -2\n" * 65_535
    return script + "unregister\n", "register 0\n" + "regupdate 1\n" * 65_534 + "regupdate -11\nunregister 0\nclosed r1.0 a.txt\n"


def limits():
    """Each script at a limit: its name, the script, the text, and the line and the fault of a bad one."""
    for whole in (full_table, heaviest_submission, full_catalogue, too_many_submissions, submissions_65535, too_many_registrations,
                  all_updates, longest_script):
        yield whole.__name__, *whole(), ""
    # one more than a table has chains, with an update of the ring between two of them
    yield "submissions_1024", *open_after_open(1_024, 512), ""
    yield "text_of_8_megabytes", *large_text(1), ""
    yield "text_of_134_megabytes", *large_text(MEMBERS), ""
    yield "bad_list_in_a_line_too_long", f"update 10 {','.join(['0'] * 4996)}\nsubmit\n", "", "line 1: long-line"
    yield "bad_script_too_long", longest_script()[0] + "\n", "", "line 0: long-script"
