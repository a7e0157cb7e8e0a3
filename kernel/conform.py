"""conform [--build] [--scripts N] [--seed S] [--rule NAME] [--player PROGRAM] [--seconds N]: checks which rules of docs/inside/MODEL.md
this machine's kernel keeps, or PROGRAM, which plays a script of standard input. conform(1) describes the options and the report.

The exit status is 0 if every failure is a listed difference, 1 if another one is found, 2 if an argument is invalid, and 4 if there is
no io_uring, or a tool is missing: fixcheck, a C compiler, liburing or Python 3.10."""
import os
import platform
import re
import subprocess
import sys
import time

from kernel import flights
from scripts.checks import arguments
from kernel.kernels import FIXCHECK, LEFT_OUT, NO_KERNEL, PLAYER, UNSAID
from kernel.kernels import built_player, found_of_kernel, large_differences, listed, missing_program, of_older_kernels, text_of_kernel, verdict_of
from scripts.programs import LEGAL, Progress, TooLong, in_parallel
from model.random_scripts import random_scripts
from scripts.examples import rows
from scripts.repository import BUILD, ROOT, keep, scripts_of, write

PASSED, FAILED, INVALID, NOTHING_TO_PLAY_ON = 0, 1, 2, 4
# the number of contending scripts for each random one, and of plays of each
CONTENDING, TIMES = 0.2, 4
# no contending script is played after this many seconds of them
SECONDS = 40
SCHEDULE, RANDOM = "submission_is_its_requests_one_at_a_time", "random_scripts"
# the rules of each section of docs/inside/MODEL.md, each with words of the page and its scripts
RULES = {
    "Chains": {
        "link_severs_after_a_failure": ("`IOSQE_IO_LINK`", """canceled_tail short_read_severs read_at_the_end_severs
            bad_slot_before_an_open faults/hard_link_at_the_end_of_a_chain faults/hard_link_at_the_end_of_a_submission
            questions/unlinked_members"""),
        "hard_link_goes_on_after_a_failure": ("`IOSQE_IO_HARDLINK`", """hard_link_goes_on hard_link_in_a_severed_chain
            hard_link_of_an_update soft_link_behind_a_hard_one faults/hard_links_of_each_failure faults/hard_links_without_a_table
            faults/sixteen_failing_hard_links questions/hard_link_behind_a_failed_open"""),
        "submission_is_refused_as_a_whole": ("refused as a whole", """faults/long_read faults/long_update faults/chain_too_long
            faults/chain_too_long_by_both_links faults/too_many_files faults/too_many_chains differences/long_read
            differences/long_update differences/chain_too_long differences/too_many_files too_many_chains
            too_many_submissions"""),
    },
    "Answers of a request": {
        "open_at_a_slot_replaces_its_file": ("Open at slot", """open_read_close no_such_name_before_bad_slot
            differences/refused_open_opens_its_file"""),
        "open_at_any_slot_takes_a_free_one": ("Open at any slot", """allocation_fills_its_range open_any_takes_a_closed_slot
            questions/open_any_beside_a_close"""),
        "read_uses_the_file_at_its_slot": ("Read of slot", """read_of_an_empty_slot read_of_nothing read_of_nothing_wants_a_file
            faults/read_past_the_table"""),
        "close_empties_its_slot": ("Close of slot", "faults/no_table questions/close_beside_an_open"),
        "update_applies_its_whole_list_or_nothing": ("Update from slot", """updates_clear_skip_and_replace registered_list_is_updated
            refused_updates_change_nothing file_replaced_in_a_chain differences/update_up_to_a_bad_entry"""),
    },
    "Between submissions": {
        "sparse_registration_makes_empty_slots": ("Sparse registration", """faults/refused_table_sizes differences/larger_table
            differences/sparse_of_nothing_on_a_table"""),
        "registration_installs_its_whole_list_or_nothing": ("Registration of a list", """registered_list
            registrations_are_counted_together faults/refused_lists faults/largest_entry_is_no_file
            differences/bad_entry_in_front_of_a_bad_tag too_many_registrations"""),
        "unregistering_closes_every_file": ("Unregistering", "unregister_closes_every_file"),
        "range_limits_opens_at_any_slot": ("Setting the range", "range_past_the_table_and_empty_range"),
        "ring_update_applies_its_whole_list_or_nothing": ("Update of the ring", """ring_update_clears_skips_and_replaces
            faults/ring_updates differences/update_up_to_a_bad_tag"""),
    },
    "Tags": {
        "tag_belongs_to_the_file_and_not_to_the_slot": ("tag is the file's", """tag_of_the_file_that_went tag_of_a_kept_slot
            new_files_have_no_tag two_files_with_one_tag faults/tag_of_no_file faults/tags_of_another_number
            faults/tags_before_too_many_slots faults/refused_tags_leave_nothing faults/largest_tag
            faults/largest_tags_of_a_whole_table faults/tags_on_the_longest_line"""),
        "tag_comes_when_its_file_is_closed": ("comes with the close", """tag_comes_with_the_close tag_at_the_teardown
            tagged_files_leave_in_each_way tags_in_order_of_mark faults/tags_past_a_refused_submission
            questions/tag_behind_a_long_read differences/file_left_in_the_table_posts_no_tag"""),
    },
    "A submission": {
        SCHEDULE: ("Whatever the schedule", """replaced_between_two_members questions/replaced_under_a_reader
            questions/two_writers_and_a_reader questions/update_beside_a_linked_read"""),
        "accepted_submissions_are_counted": ("the submission is counted", """two_submissions faults/submit_alone
            faults/submit_alone_before_a_refused_one faults/empty_script"""),
    },
}


class Outcome:
    """The outcome of a script or a rule: its name, whether it passed, the differences that explain a failure, why it was skipped."""

    def __init__(self, name, is_ok=True, known=frozenset(), skipped="", comments=()):
        self.name, self.is_ok, self.known, self.skipped, self.comments = name, is_ok, known, skipped, comments

    def is_wrong(self):
        return not self.is_ok and not self.known

    def lines(self, nth, indent=""):
        """Yields the comments and the result line. As in the kernel's own tests, an expected failure begins with `ok`."""
        yield from (f"{indent}# {it}" for it in self.comments)
        directive = f" # XFAIL {', '.join(sorted(self.known))}" if self.known else f" # SKIP {self.skipped}" if self.skipped else ""
        yield f"{indent}{'not ok' if self.is_wrong() else 'ok'} {nth} {self.name}{directive}"


def totals(outcomes):
    known, wrong, skipped = (sum(map(bool, those)) for those in zip(*((it.known, it.is_wrong(), it.skipped) for it in outcomes)))
    return f"pass:{len(outcomes) - known - wrong - skipped} fail:{wrong} xfail:{known} skip:{skipped}"


def named_lines(lines, said):
    """Yields the numbers of the script's lines that a verdict names: of the request by its place, and of the command."""
    command = re.search(r"line (\d+) of the script", said)
    if not command:
        return
    number, place, at = int(command[1]), re.search(r"(?<!\S)\d+\.(\d+)\.(\d+)(?=[\s,;])", said), [1, 1]
    before = [nth for nth in range(1, number) if lines[nth - 1] == "submit"]
    for nth in range(before[-1] + 1 if before else 1, number):
        line = lines[nth - 1]
        if line.split(" ")[0] in ("open", "read", "close", "update"):
            if place and at == [int(place[1]), int(place[2])]:
                yield nth
            at = [at[0], at[1] + 1] if line.endswith("link") else [at[0] + 1, 1]
    yield number


class Scripts:
    """Plays scripts on the player, each for at most `seconds`. `shown` has the differences that their own scripts have shown."""

    def __init__(self, player, fixcheck, count, seconds=120):
        self.player, self.fixcheck, self.seconds, self.shown = player, fixcheck, seconds, listed()[0]
        self.progress, self.done, self.count = Progress(), 0, count

    def count_play(self):
        self.done += 1
        self.progress.show(f"{self.done:,} of {self.count:,} plays")

    def broken(self, name, script, written, words):
        """Returns the outcome of a failed script: the paths of the script and its text, the verdict, and the lines that it names."""
        path, text = keep(f"conform-{name.replace('/', '-')}", script, written)
        kept = [it for it in (f"examples/{name}.script", f"kernel/{name}.script") if os.path.exists(os.path.join(ROOT, it))]
        lines = script.decode().split("\n")
        named = [f"line {nth}: {lines[nth - 1][:200]}" for nth in named_lines(lines, " ".join(words))]
        return Outcome(name, False, comments=[f"script {[*kept, path][0]}, text {text}", *words, *named])

    def outcome(self, name, script):
        """Returns the outcome of a script that is played once."""
        try:
            found = found_of_kernel(self.player, self.fixcheck, script, self.shown, self.seconds)
        except subprocess.TimeoutExpired as hang:
            return self.broken(name, script, "", [f"the play did not end within {hang.timeout:g} s"])
        except TooLong as fault:
            return self.broken(name, script, "", [f"the play did not end by itself: {fault}"])
        finally:
            self.count_play()
        if found.standing == UNSAID:
            return Outcome(name, skipped=found.complaint.strip().partition(": ")[2])
        if found.standing == LEFT_OUT and not found.said.startswith("not legal"):
            return Outcome(name, skipped="undecided")
        if found.standing in (None, LEFT_OUT):
            return self.broken(name, script, found.written, (found.said + found.complaint).splitlines())
        return Outcome(name, False, known=found.standing) if isinstance(found.standing, frozenset) else Outcome(name)

    def outcomes(self, scripts):
        return in_parallel(lambda it: self.outcome(*it), scripts)

    def differences(self, scripts):
        """Returns the outcomes of the scripts of the differences. A difference that they don't show is not expected elsewhere."""
        older = {name: (name, script) for name, script in scripts if name.split("/")[-1] in of_older_kernels()}
        # a difference of older kernels that this one lacks would change the model of other scripts
        self.shown = of_older_kernels()
        outcomes = self.outcomes(older.values())
        self.shown = listed()[0].union(*(it.known for it in outcomes))
        outcomes += self.outcomes([it for it in scripts if it[0] not in older])
        self.shown = frozenset().union(*(it.known for it in outcomes))
        return outcomes

    def text(self, script, nth):
        try:
            return text_of_kernel(self.player, script, nth, self.seconds)
        except (subprocess.TimeoutExpired, TooLong):
            return None
        finally:
            self.count_play()

    def contending(self, scripts, times):
        """Returns the outcomes of scripts that are played `times` times each, and the largest number of different texts of one."""
        end, played = time.monotonic() + SECONDS, {name: (script, set()) for name, script in scripts}

        def play(case):
            (script, texts), nth = case
            if time.monotonic() < end:
                texts.add(self.text(script, nth))

        for nth in range(times):
            in_parallel(play, [(it, nth) for it in played.values()])
        return in_parallel(lambda name: self.of_texts(name, *played[name]), played), max(len(it) for _, it in played.values())

    def of_texts(self, name, script, texts):
        """Returns the outcome of a script with several texts, all of which must be legal."""
        for written in sorted(texts, key=str):
            status, said = (None, "a play failed") if written is None else verdict_of(self.fixcheck, script, written)
            if status != LEGAL:
                return self.broken(name, script, written or "", said.splitlines())
        return Outcome(name, skipped="" if texts else "no time was left")


def name_of(path):
    return re.sub(r"^(examples|kernel)/|\.script$", "", path)


def kept_scripts():
    """Returns the scripts of the rules by their names: those of the differences, and the others. Invalid scripts are left out."""
    differences = [*((name_of(path), script) for path, script in scripts_of("kernel/differences")), *large_differences()]
    others = [(name_of(path), script) for path, script in scripts_of("examples", "examples/questions")]
    others += [(it.name, it.script) for it in rows() if not it.fault]
    there = {name for name, _ in differences + others}
    wanted = " ".join(scripts for rules in RULES.values() for _, scripts in rules.values()).split()
    if sorted(there) != sorted(wanted):
        sys.exit(f"conform: not in exactly one rule, or without a script: {', '.join(sorted(there ^ set(wanted))) or 'a script'}")
    return differences, others


def tests(options):
    """Yields each rule with its section and the outcomes of its scripts."""
    differences, others = kept_scripts()
    randoms = list(random_scripts("random", options.seed, options.scripts))
    contending = list(random_scripts("contending", options.seed, max(1, int(CONTENDING * options.scripts))))
    if options.rule:
        wanted = next((names.split() for rules in RULES.values() for rule, (_, names) in rules.items() if rule == options.rule), [])
        # other scripts of differences show which may be expected, but the large ones
        large = dict(large_differences())
        differences = [it for it in differences if it[0] in wanted or it[0] not in large]
        others = [it for it in others if it[0] in wanted]
        randoms = randoms if options.rule == RANDOM else []
        contending = contending if options.rule == SCHEDULE else []
    count = len(differences) + len(others) + len(randoms) + TIMES * len(contending)
    scripts = Scripts(options.player, options.fixcheck, count, options.seconds)
    found = scripts.differences(differences) + scripts.outcomes(others + randoms)
    many, most = scripts.contending(contending, TIMES) if contending else ([], 0)
    if contending:
        print(f"# at most {most} texts of a script whose chains contend")
    scripts.progress.end()
    by_name = {it.name: it for it in found}
    for section, rules in RULES.items():
        for rule, (_, names) in rules.items():
            if options.rule not in ("", rule):
                continue
            yield section, rule, [by_name[it] for it in names.split()] + (many if rule == SCHEDULE else [])
    if randoms:
        yield "All rules", RANDOM, [by_name[name] for name, _ in randoms]


def in_flight(options):
    """Yields the rules of calls in flight with the outcomes of their logs."""
    yachtlog, missing = flights.judge()
    for rule, those in flights.RULES.items():
        if options.rule not in ("", rule):
            continue
        count = max(1, int(those.share * options.scripts))
        if missing:
            yield "Calls in flight", rule, [Outcome(rule, skipped=missing)]
            continue
        recorder = flights.built_recorder()
        seeds = range(options.seed, options.seed + count)
        found = in_parallel(lambda seed: of_log(yachtlog, recorder, those, rule, seed), seeds)
        print(f"# {rule}: {sum(overlaps for _, overlaps in found)} of {count} logs have an answer before that of an earlier call")
        yield "Calls in flight", rule, [outcome for outcome, _ in found]


def of_log(yachtlog, recorder, those, rule, seed):
    """Returns the outcome of one log of the kernel, and whether its calls overlap."""
    name = f"{rule}_{seed}"
    log, complaint = flights.recorded(recorder, those.words, seed)
    is_undecided = False
    if not complaint:
        complaint, is_undecided = flights.complaint_of(yachtlog, log, those.is_whole)
    if not complaint:
        return Outcome(name, skipped="undecided" if is_undecided else ""), flights.overlaps(log)
    path = os.path.join(BUILD, f"conform-{name}.log")
    write(path, log)
    return Outcome(name, False, comments=[f"log {os.path.relpath(path, ROOT)}", complaint]), flights.overlaps(log)


def of_rule(rule, outcomes):
    """Returns the outcome of a rule, which fails if one of its scripts does, and is skipped if all are."""
    known = frozenset() if any(it.is_wrong() for it in outcomes) else frozenset().union(*(it.known for it in outcomes))
    skipped = "all of its scripts are skipped" if all(it.skipped for it in outcomes) else ""
    return Outcome(rule, all(it.is_ok for it in outcomes), known, skipped)


def report(those):
    """Prints the report, and returns the exit status."""
    print(f"1..{len(those)}")
    section, rules = None, []
    for nth, (begun, rule, outcomes) in enumerate(those, 1):
        rules.append(of_rule(rule, outcomes))
        if begun != section:
            section = begun
            print(f"# {section}")
        print(f"  KTAP version 1\n  # Subtest: {rule}\n  1..{len(outcomes)}")
        for number, it in enumerate(outcomes, 1):
            print("\n".join(it.lines(number, "  ")))
        print("\n".join(rules[-1].lines(nth)))
    print(f"# scripts: {totals([it for *_, outcomes in those for it in outcomes])}")
    print(f"# Totals: {totals(rules)}")
    return FAILED if any(it.is_wrong() for it in rules) else PASSED


def complaint_of(options):
    """Returns why an argument is invalid, or nothing."""
    for name in ("scripts", "seconds"):
        least = int(name == "seconds")
        if getattr(options, name) < least:
            return f"--{name} takes a number from {least} up, not {getattr(options, name)}"
    names = [*(rule for rules in RULES.values() for rule in rules), RANDOM, *flights.RULES]
    if options.rule not in ("", *names):
        return f"there is no rule {options.rule}. There are {', '.join(names)}"
    if options.player != PLAYER:
        try:
            with subprocess.Popen([options.player], stdin=subprocess.DEVNULL, stdout=subprocess.DEVNULL, stderr=subprocess.DEVNULL) as begun:
                begun.kill()
        except OSError as wrong:
            return f"the player {options.player} can't be run: {wrong.strerror}"
    return ""


def command():
    options = arguments(__doc__, flags="build", options={"scripts": 500, "seed": 1, "seconds": 120, "player": PLAYER, "fixcheck": FIXCHECK},
                        words=("rule",))
    complaint = complaint_of(options)
    if complaint:
        print(f"conform: {complaint}", file=sys.stderr)
        return INVALID
    print("KTAP version 1")
    judged = f"player {options.player}"
    if options.player == PLAYER:
        judged = f"kernel {platform.release()}"
        status, missing = built_player()
        if status:
            print(f"1..0 # SKIP {missing if status == NO_KERNEL else 'the player cannot be built: ' + missing.splitlines()[0]}")
            return NOTHING_TO_PLAY_ON
    if options.build:
        flights.built_recorder()
        print("# the programs in C are built\n1..0")
        return PASSED
    if not os.path.exists(options.fixcheck):
        print(f"1..0 # SKIP {missing_program(options.fixcheck.removeprefix(f'{ROOT}/'), 'check')}")
        return NOTHING_TO_PLAY_ON
    what = f"rule {options.rule}" if options.rule not in ("", RANDOM) else f"{options.scripts} random scripts, seed {options.seed}"
    print(f"# {judged}; {what}", flush=True)
    those = [] if options.rule in flights.RULES else list(tests(options))
    return report(those + (list(in_flight(options)) if options.player == PLAYER else []))
