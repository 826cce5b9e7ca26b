"""What other people, other users and other programs can do to a folder and to a run: `tools/relmove --hostile`.

Each row is a function, and its first line says what has to be. It makes folders of its own, calls the program there,
and gives what isn't so. `R` is the root, and what lies beside it in the folder of a case must never change.

A run is held at each of its calls that change something, by tools/calls.c, while the script does what another program
might do. A row with two users lets the other one do it, with no more rights than that user has. Rows that need another
user, a mount or a tool of the system are left out where that isn't to be had, and the script says so.
"""

from common import Tally
from hostile import copies, disks, exchanges, foreign, neighbours, odd_files, others, output, run_files, pages, paths, readers
from hostile import runs
from hostile.bench import Bench, LeftOut

ROWS = [
    run_files.run_files_are_new,
    run_files.staging_names_are_new,
    run_files.reserved_names_are_new,
    run_files.left_files_are_removed,
    foreign.own_journal_is_believed,
    foreign.foreign_journals_are_refused,
    foreign.links_are_not_followed,
    foreign.own_directory_is_no_link,
    foreign.origins_are_asked_for,
    foreign.exchanged_directories_stop,
    foreign.changed_journals_are_refused,
    foreign.copied_journals_are_refused,
    copies.journals_made_anew_are_refused,
    copies.unpacked_journals_are_refused,
    copies.linked_journals_are_named,
    foreign.trust_is_not_blind,
    foreign.journal_has_its_time,
    runs.runs_exclude_each_other,
    runs.runs_exclude_ends,
    runs.lock_is_before_reading,
    runs.readers_are_told,
    run_files.strangers_stay,
    paths.names_are_asked_for,
    paths.longest_paths_are_asked_for,
    paths.directories_are_searched,
    paths.undo_tolerates_what_was_not_made,
    pages.owners_keep_their_bytes,
    pages.private_pages_stay_private,
    pages.modes_stay,
    pages.access_lists_go_with_a_new_text,
    pages.edits_after_a_kill_stay,
    pages.edits_while_it_works_stay,
    disks.power_may_go,
    disks.power_may_go_from_a_directory,
    disks.power_may_go_on_ext4,
    odd_files.emptied_directories_may_stay,
    run_files.reserved_names_do_not_move,
    odd_files.odd_files_are_passed_over,
    odd_files.devices_are_passed_over,
    others.directories_stay_directories,
    others.fifos_let_no_call_wait,
    others.strangers_at_new_stay,
    others.strangers_at_old_stay,
    runs.nested_journals_refuse,
    runs.nested_runs_exclude_each_other,
    output.control_characters_are_escaped,
    output.stopped_output_is_escaped,
    paths.empty_root_is_wrong,
    paths.unread_directories_keep_their_names,
    readers.staged_files_stay_private,
    readers.private_texts_stay_in_private_files,
    exchanges.foreign_files_are_not_placed,
    exchanges.foreign_files_do_not_race_in,
    neighbours.runs_of_others_are_refused,
    neighbours.runs_are_ended_by_their_users,
    neighbours.journals_of_others_near_are_passed_over,
    neighbours.sticky_roots_are_no_trap,
    output.words_are_true,
    disks.undo_needs_no_room,
    odd_files.masks_do_not_matter,
    run_files.left_names_are_mentioned,
    paths.climbing_links_are_not_asked_for,
    disks.other_devices_are_found,
]


def try_row(row, at, show, tally):
    """Tries a row, and prints its first faults."""
    what = row.__doc__.split("\n")[0]
    try:
        faults = list(row(at))
    except LeftOut as why:
        print(f"relmove: left out, {why}: {what}", flush=True)
        return
    rest = [f"and {len(faults) - show} faults more"] * (len(faults) > show)
    tally.add(what, [*faults[:show], *rest])


def try_rows(options, program, folder):
    """Tries the rows whose sentence begins with these words, and gives the script's status."""
    tally, at = Tally("relmove"), Bench(program, folder)
    for row in ROWS:
        if row.__doc__.startswith(options.hostile):
            try_row(row, at, options.show, tally)
    return tally.end()
