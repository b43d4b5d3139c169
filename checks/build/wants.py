"""Tests whose calls want memory with each of their requests refused in turn, one in each run.

A library that is loaded before the program's own (checks/support/refuse.c, built by cc) counts a test's requests for memory and for
threads, and refuses one of them. Then the test passes, or it ends with an error that names the want: a wrong answer is an assertion that
fails. TESTS has for each call that can want memory a test in which it stands. Some tests say what was refused (they make the call again, or
name the fault): each of these texts has to come up in some run. Of a test with threads, whose requests differ from run to run, all from one
request on are refused too. The programs are those that rt ci or rt test leaves in crates/NAME/out; where there is none, rt test proves and
builds it.
"""

import functools
import os
import re
import subprocess
import tempfile
import unittest
from collections import Counter
from concurrent.futures import ThreadPoolExecutor
from typing import NamedTuple

from support.case import one_for_each
from support.program import TOP, Requests, expect, own_folder

CRATES = os.path.join(TOP, "crates")
SECONDS = 20
# The status of a test that ended with a fault of its own, and not by an assertion.
GAVE_UP = 101
# (a writer into memory that is refused more of it has failed as a writer)
WRITE = re.compile(rb"^error: Write$", re.MULTILINE)
WANT = re.compile(rb"^error: .*(Memory|AllocError|AllocFailed|OutOfMemory|Thread|out of memory|cannot start a thread)", re.MULTILINE)


class Test(NamedTuple):
    """A test, the calls that want memory in it, what it says where they are refused, and whether it has threads."""

    crate: str
    name: str
    calls: str
    said: tuple = ()
    threads: bool = False


DESK_SAID = ("refused: new\n", "refused: take\n", "refused: end\n", "refused: judge\n")
RUN_SAID = ("run: out of memory", "run: cannot start a thread")
TESTS = (
    Test("jr_tests_history", "flight::agrees_with_a_plain_list", "Flight::new, begin"),
    Test("jr_tests_history", "writes::last_of_its_blocks_is_intact", "WriteLog::settle"),
    Test("jr_tests_history", "writes::both_halves_go", "WriteLog::settle"),
    Test("jr_tests_history", "writes::a_refused_settle_changes_nothing", "WriteLog::settle", ("refused: settle\n",)),
    Test("jr_tests_history", "history::a_run_event_by_event", "Past::new, followed_by; Ledger::new, followed_by"),
    Test("jr_tests_history", "history::a_large_piece_lies_over_each_of_its_parts", "Past::new, followed_by"),
    Test("jr_tests_history", "passes::totals_of_a_run", "totals"),
    Test("jr_tests_history", "passes::the_parts_of_a_plan", "Agenda::new, PlannedClone::new, PlannedPass::new"),
    Test("jr_tests_history", "replay::a_checked_run_is_legal_and_complete", "allowed, complete"),
    Test("jr_tests_history", "replay::each_start_of_a_run_is_the_choice", "choice"),
    Test("jr_tests_history", "tallies::each_clone_has_its_own", "Tallies::new, reserve"),
    Test("jr_tests_history", "tickets::tickets_come_back_as_they_were_handed_out", "TicketTable::reserve"),
    Test("jr_tests_desk", "refused::a_refused_call_changes_nothing", "Desk::new, take, end, judge; ScriptedEngine", DESK_SAID),
    Test("jr_tests_desk", "plays::two_in_flight_and_a_flipped_read", "play"),
    Test("jr_tests_desk", "plays::two_clones_over_one_file", "play"),
    Test("jr_tests_desk", "plays::refusals_by_name", "play"),
    Test("jr_tests_parts", "map::goes_on_at_the_least_free_cell", "CellMap::new"),
    Test("jr_tests_parts", "draws::visits_each_cell_of_a_map_once", "Drawer::new"),
    Test("jr_tests_parts", "draws::cuts_a_draw_at_a_taken_cell", "CellMap::new, Drawer::new"),
    Test("jr_tests_parts", "files::files_are_read_as_they_were_written", "FileEngine::new, lay_out"),
    Test("jr_tests_parts", "deferred::gives_the_draws_of_a_drawer", "DrawsLeft::of_pass"),
    Test("jr_tests_parts", "deferred::writes_and_reads_in_rounds_of_two", "Rounds::written (by the rounds of a standing clone)"),
    Test("jr_tests_parts", "engines::memory_has_edges", "MemoryEngine::new; SharedMemory::new, share"),
    Test("jr_tests_crew", "drops::a_refused_run_drops_its_engines", "run, which drops its engines", RUN_SAID, True),
    Test("jr_tests_crew", "runs::four_workers_write_one_file", "run", threads=True),
    Test("jr_tests_crew", "runs::a_hundred_random_writes_are_good_whoever_judges", "run", threads=True),
    Test("jr_tests_crew", "runs::gates_that_soon_give_up_are_told", "run", threads=True),
    Test("jr_tests_crew", "handover::who_holds_every_part_can_settle", "Handoff::new, split"),
    Test("jr_tests_program", "sections::reads_sections_with_their_lines", "sections"),
    Test("jr_tests_program", "sections::a_section_is_made_and_taken_apart", "Line::new, Section::new"),
    Test("jr_tests_program", "options::one_file_of_two_clones", "plan"),
    Test("jr_tests_program", "plans::clones_share_a_file", "Draft::add, plan_text"),
    Test("jr_tests_program", "program::a_plan_is_printed", "read_text, print_plan"),
    Test("jr_tests_program", "program::offsets_and_phases_are_planned", "read_job, print_plan"),
    Test("jr_tests_program", "words::each_word_goes_to_its_field", "choose"),
    Test("jr_tests_program", "replies::flipped_bytes_are_told_by_their_place", "run_serial, execute_serial; ScriptedEngine::new"),
    Test("jr_tests_program", "program::a_report_and_a_trace_are_written", "execute_serial, report, totals_text, trace; MemoryEngine::new"),
    Test("jr_tests_program", "program::a_trace_is_checked", "read_trace, check_trace"),
    Test("jr_tests_program", "crew::a_flipped_byte_is_found_by_a_crew", "read_job, execute", threads=True),
)


@functools.cache
def built_program(crate):
    """The program of a crate's tests."""
    path = os.path.join(CRATES, crate, "out", f"{crate}_tests")
    if not os.path.exists(path):
        subprocess.run(["rt", "test"], cwd=os.path.join(CRATES, crate), stdout=subprocess.DEVNULL, check=True)
    return os.path.realpath(path)


class Ended(NamedTuple):
    """How a run ended, and how many requests it made and was refused. Without an end in time the status is None."""

    status: int
    out: bytes
    err: bytes
    requests: int
    refused: int


def run(test, number, and_on):
    """How a test ends that is refused the request of this number, and all behind it where so said, in a folder of its own."""
    with tempfile.TemporaryDirectory(dir=own_folder()) as room:
        requests = Requests(os.path.join(room, "counts"))
        environment = {**requests.environment(number, and_on), "TMPDIR": room}
        how = {"cwd": room, "env": environment, "stdin": subprocess.DEVNULL, "capture_output": True, "timeout": SECONDS}
        try:
            it = subprocess.run([built_program(test.crate), test.name], check=False, **how)
        except subprocess.TimeoutExpired:
            return Ended(None, b"", b"", 0, 0)
        return Ended(it.returncode, it.stdout, it.stderr, *requests.counted())


def has_passed(ended):
    return ended.status == 0 and b"test result: ok" in ended.out


def is_right(test, ended):
    """Has a test ended as it may? One without threads makes the same requests in each run, so that one of them was refused."""
    if not test.threads and ended.refused != 1:
        return False
    wanted = WANT.search(ended.err) or (test.crate == "jr_tests_program" and WRITE.search(ended.err))
    return has_passed(ended) or (ended.refused > 0 and ended.status == GAVE_UP and bool(wanted))


class Tried(NamedTuple):
    """How many requests a test makes, how many runs were tried, how many gave up, how many said what, and what was wrong."""

    count: int
    runs: int
    gave_up: int
    seen: Counter
    wrong: list


def tried(test):
    """Tries a test with each request refused."""
    usual = run(test, 0, False)
    if not has_passed(usual) or not usual.requests:
        return Tried(usual.requests, 1, 0, Counter(), [f"without a refusal it ended with {usual}"])
    ways = (False, True) if test.threads else (False,)
    tries = [(number, on) for number in range(1, usual.requests + 1) for on in ways]
    with ThreadPoolExecutor(os.cpu_count()) as pool:
        ends = list(pool.map(lambda it: run(test, *it), tries))
    wrong, seen = [], Counter()
    for (number, on), ended in zip(tries, ends):
        if not is_right(test, ended):
            wrong.append(f"{'all from request' if on else 'request'} {number} of {usual.requests} refused: {str(ended)[:600]}")
        seen.update(text for text in test.said if text.encode() in ended.err)
    wrong += [f"no run said '{text.strip()}'" for text in test.said if not seen[text]]
    gave_up = sum(it.status == GAVE_UP for it in ends)
    if not gave_up and not test.said:
        wrong.append("no run of it gave up")
    return Tried(usual.requests, len(tries), gave_up, seen, wrong)


class Wants(unittest.TestCase):
    """Tests whose requests are refused, each by its crate and name."""


@one_for_each(Wants, {f"{it.crate}_{it.name}": it for it in TESTS})
def is_right_with_any_refused(self, test):
    """Each request of a test is refused in turn."""
    it = tried(test)
    said = f"{test.calls}: {it.count} requests, {it.runs} runs, {it.gave_up} gave up"
    self.said = said + "".join(f", {it.seen[text]} said '{text.strip()}'" for text in test.said)
    expect(not it.wrong, f"{len(it.wrong)} of {it.runs} runs; " + "; ".join(it.wrong[:3]))
