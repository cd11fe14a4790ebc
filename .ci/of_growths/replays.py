"""Replays of scripts: by the program, which ends where memory is refused; and call by call, each of which is made again
where it is."""

import pathlib

from of_conversations.folders import chosen_cases, read_conversation
from of_conversations.targets import TargetCase

from .runs import MEMORY, ROOT, Case
from .tests import answers

REPLAYED = [ROOT / "examples/first", *sorted(ROOT.glob("tests/refused_growths/*/STREAM"))]
FAILING_DISK = ROOT / "tests/refused_growths/a_disk_that_fails_once"
# Of tests/conversations each case of these, in this order: an ICReq, whole, in part and none; properties and Connects;
# the discovery log page; lists of namespaces, their changes and their groups; Writes by R2T, and Reads; event requests;
# the edits that end controllers; faults of data; alignment, pieces, and the queue's places.
MADE_AGAIN = [
    "an_icreq_is_answered",
    "an_icreq_is_answered_byte_by_byte",
    "a_part_of_a_pdu_is_not_answered",
    "a_first_pdu_that_is_no_icreq_is_answered",
    "properties_are_read",
    "a_connect_that_names_no_subsystem_of_its_host_is_refused",
    "the_first_reason_is_answered",
    "the_generation_counter_counts_changes_of_the_records",
    "the_log_page_is_read_in_parts",
    "a_host_lists_namespaces_as_edits_change_them",
    "namespaces_behind_another_are_listed",
    "a_namespace_that_changed_is_told_once_and_listed",
    "ana_groups_are_listed_with_their_states_and_counts",
    "a_write_is_done_once_its_data_have_come",
    "a_write_is_checked_again_with_its_last_data",
    "the_last_block_of_a_namespace_is_served",
    "four_event_requests_wait_and_a_fifth_is_refused",
    "a_withdrawal_shows_to_the_discovery_controller_that_stays",
    "an_edit_that_withdraws_leave_ends_controllers",
    "each_fault_of_an_h2c_data_ends_its_connection",
    "data_that_come_again_end_their_connection",
    "a_host_has_its_data_aligned",
    "a_longer_read_comes_in_pieces_of_32768_bytes",
    "an_event_request_that_waits_has_its_identifier",
    "an_event_request_that_waits_has_its_place_in_the_queue",
    "the_queue_goes_round",
]
# An edit that is made in its first case, and refused in its second.
MADE_OR_NOT = "a_link_that_comes_is_seen_beside_what_waits"
NOT_MADE, REFUSED = b"refused NoSuch Subsystem\n", b"refused Memory\n"


class Replay(Case):
    """A replay of a folder's EDITS and STREAM by the program, with words behind each PDU or without."""

    def __init__(self, program, folder, explained):
        self.name = f"replay of {folder.name}" + (" in words" if explained else "")
        self.command = [str(program), "replay", str(folder / "EDITS"), str(folder / "STREAM")]
        self.explained = explained
        if explained:
            self.command.append("--explain")
        self.told_first = 0

    def is_told_first(self, run, ample):
        """Whether a fault of EDITS hides want of memory for the bytes of STREAM, which is one growth."""
        if not ample.err.startswith(b"error: line ") or run.end() != ample.end():
            return False
        self.told_first += 1
        return self.told_first == 1

    def fault_of(self, run, ample):
        if not run.refused:
            is_replay = run.growths > 0 and run.status in (0, 1) and run.err != MEMORY
            return None if is_replay else "the program fails with ample memory, or no growth is counted"
        if self.is_told_first(run, ample):
            return None
        if run.out and not run.out.endswith(b"\n") and not self.explained:
            return "the last line that was printed is cut"
        return ends_by_memory(run, ample)


def ends_by_memory(run, ample):
    """What is wrong with the run of a program that ends where memory is refused, if anything is."""
    if run.status == 0:
        return "the program ends with status 0: the refusal was swallowed"
    if run.status != 1 or run.err != MEMORY:
        return "the program does not end with status 1 and `error: memory`"
    if not ample.out.startswith(run.out):
        return "what was printed is no prefix of what is printed with ample memory"
    return None


def replays(program):
    folders = [it if it.is_dir() else it.parent for it in REPLAYED]
    return [Replay(program, folder, explained) for folder in folders for explained in (False, True)]


class Again(Case):
    """A script by replay_again: the same is printed whichever growth is refused, and that is what has to be."""

    def __init__(self, program, scratch, case, *words):
        self.name = f"script {case.name}"
        self.out = case.files["OUT"]
        folder = pathlib.Path(scratch, f"{id(case)}-{len(words)}")
        folder.mkdir()
        for name in ("EDITS", "STREAM"):
            folder.joinpath(name).write_bytes(case.files[name])
        self.command = [str(program), str(folder / "EDITS"), str(folder / "STREAM"), *words]

    def fault_of(self, run, _ample):
        if run.growths == 0:
            return "no growth is counted"
        if run.status != 0:
            return "the script is not played to its end"
        if answers(run.err) != run.refused:
            return f"{run.refused} growths were refused, and {answers(run.err)} calls answered Memory"
        return self.printed_fault(run.out)

    def printed_fault(self, out):
        return None if out == self.out else "something else is printed"


class MadeOnce(Again):
    """The same, where an edit that answers Memory is not made again: what comes after it is as if it were not there."""

    def __init__(self, program, scratch, made, not_made):
        super().__init__(program, scratch, made, "--edits-once")
        self.name += ", its edits once"
        self.not_made = not_made.files["OUT"]

    def printed_fault(self, out):
        if REFUSED not in out:
            return super().printed_fault(out)
        before, _, _ = self.not_made.partition(NOT_MADE)
        if out.startswith(before + REFUSED):
            is_right = out == self.not_made.replace(NOT_MADE, REFUSED)
            return None if is_right else "something is not as it was before the edit"
        # Of another edit the script has no case in which it is not made.
        is_right = self.out.startswith(out.partition(REFUSED)[0])
        return None if is_right else "something else is printed before an edit"


def scripts(program, scratch):
    """The scripts that replay_again plays, each case of each conversation."""
    tests = ROOT / "tests"
    parts = {path.name.encode(): path.read_bytes() for path in (tests / "parts").glob("*")}
    found = [case for name in MADE_AGAIN for case in chosen_cases(tests, [TargetCase], [name])]
    made, not_made = chosen_cases(tests, [TargetCase], [MADE_OR_NOT])
    [failing] = read_conversation(FAILING_DISK, TargetCase, parts)
    cases = [Again(program, scratch, case) for case in [*found, made]]
    cases.append(MadeOnce(program, scratch, made, not_made))
    return [*cases, Again(program, scratch, failing, "--failing-disk")]
