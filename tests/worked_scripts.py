#!/usr/bin/env python3
"""Checks that stdin and stdout of the program acceptance have these cases of tests/cases.

    python3 tests/worked_scripts.py

Its stdin begins with them, each behind a line `first 1`, and its stdout has their answers. Behind them stand scripts that no case can have.
"""
import os

TOP = os.path.dirname(os.path.dirname(os.path.abspath(__file__)))

CASES = """
    tail_and_head head_turns_the_order before_a_bucket unlink_takes_a_bucket_out bdelete_in_a_brigade next_counts_buckets first_of_an_empty_brigade
    bsplit_at_a_bucket bsplit_at_the_end bsplit_cleans_the_other cursors_after_bconcat
    split_at_0 split_inside split_at_the_end split_past_the_end split_of_metadata split_of_a_file copy_of_each_kind copy_of_a_pool_bucket
    bpart_at_0 bpart_inside_a_bucket bpart_on_a_border bpart_at_the_whole_length bpart_past_the_whole_length bpart_of_an_empty_brigade bpart_inside_a_file
    read_of_each_kind read_of_a_file_of_8000_bytes read_of_a_file_of_8001_bytes read_of_a_range read_of_an_empty_range read_in_parts
    aside_of_kinds_without_need aside_of_a_loose_transient aside_of_a_file_into_the_connection aside_under_the_home
    bsave_keeps_transient saved_kinds saved_file_sent_in_the_next_request saved_file_under_its_home
    destroy_run_order cleanup_order unlabel_kills_newest unlabel_of_none label_after_clear pools_printed pools_and_labels_in_each_state
    pool_bucket_survives_its_pool poolb_becomes_heap_at_a_clear poolb_split_before_the_clear poolb_on_another_pool_at_a_clear
    frombuf_as_the_buffer_stands transient_of_the_buffer transient_set_aside read_get_put heap_and_immortal flush_and_eos_of_the_filter
    jkind_of_each_kind len_of_kinds numbers_at_their_ends jnull_of_what_is_gone
    chain_of_two checked_with_a_made_certificate checked_with_its_certificate connections_take_turns close_while_a_call_runs
    refusals_by_state refused_broken_before_no_file budget_2_breaks_at_ret file_added_at_any_time
    f1_pool_destroyed f2_brigade_null f3_of_a_deleted_bucket f4_next_at_the_end f5_of_the_rest_of_a_split_file
    f6_bconcat_of_a_transient f7_pass_twice f8_of_an_eos_of_its_own f9_before_itself f10_bcreate_over_a_live_brigade
    pre_cleanups pre_cleanups_of_each_pool pre_cleanups_printed unlabel_of_a_pre_cleanup f1_prelabel_on_a_destroyed_pool
    filter_leaves chain_filter_leaves chain_each_filter_leaves leave_between_two_passes leave_keeps_what_it_has close_before_the_hand_over
""".split()


def read(*path):
    with open(os.path.join(TOP, *path), encoding='utf-8') as file:
        return file.read()


def of_cases(end):
    return [read('tests', 'cases', name + end) for name in CASES]


def main():
    scripts = ''.join('first 1\n' + text for text in of_cases('.script'))
    answers = ''.join(of_cases('.stdout'))
    told = []
    stdin = read('crates', 'acceptance', 'stdin')
    if not stdin.startswith(scripts) or not stdin[len(scripts):].startswith('first '):
        told.append('stdin does not begin with the cases')
    if answers not in read('crates', 'acceptance', 'stdout'):
        told.append('stdout does not have the answers of the cases')
    print('\n'.join(told) or '%d cases, no faults' % len(CASES))
    return int(bool(told))


if __name__ == '__main__':
    raise SystemExit(main())
