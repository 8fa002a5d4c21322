#!/usr/bin/env python3
"""Respells the names of this repository's own definitions and lemmas as today's Rattle spells them.

usage: python3 tools/respell.py            at the top of the repository, once, right after the kit's port.py

Functions, fields, constructors and lemmas are in snake case, types in camel case, and a dash joins two names, as in `take-cut`.
Some lemmas so get their words in another order: what is said to have a length comes after `length`.
A name is turned where it stands whole: outside of comments, and in src/ outside of strings too.
It writes nothing if a new name stands already in a file of specs/ or proofs/, or in a `ghost use` of a file of src/, that has the
old one, so that no two names fall together; but for the names of APART, which may.
"""

import os
import re
import sys

# old name, new name
NAMES = dict(line.split() for line in """
Laid_out LaidOut
Read-off ReadOff
Reported-off ReportedOff
above-left above_left
above-right above_right
accepted-end accepted_end
active-step active_step
address-of address_of
all-below all_below
all-logged all_logged
all-outside all_outside
all-pictured all_pictured
all-pruned all_pruned
all-touched all_touched
all-visible all_visible
all-written all_written
and-not and_not
answer-fails answer_fails
answer-is answer_is
answer-meets answer_meets
answer-to answer_to
area-end area_end
area-length length-area
at-50 at_50
at-end at_end
bcc-1 bcc_1
bcc-2 bcc_2
begins-longer begins_longer
below-256 below_256
below-lt below_lt
bit-first bit_first
bits-cut bits_cut
bits-first bits_first
bits-number bits_number
block-by block_by
block-shown block_shown
blocks-by blocks_by
blocks-in blocks_in
by-container by_container
by-four by_four
by-sizes by_sizes
byte-first byte_first
byte-in byte_in
byte-on byte_on
byte-shown byte_shown
bytes-in bytes_in
call-in call_in
change-by change_by
change-within change_within
chosen-1 chosen_1
chosen-2 chosen_2
cleared-length length-cleared
code-of-0 code_of_0
code-of-36 code_of_36
code-of-46655 code_of_46655
codes-given codes_given
column-length length-column
control-lengthy control_lengthy
count-in count_in
counting-above counting_above
counting-rising counting_rising
crc-of-12-34 crc_of_12_34
crc-of-zeros crc_of_zeros
cut-join cut_join
digit-above digit_above
digit-of digit_of
digit-on digit_on
digits-on digits_on
drawn-box drawn_box
drawn-line drawn_line
end-first end_first
entry-kind entry_kind
err-past err_past
err-right err_right
fault-first fault_first
fill-all fill_all
filled-up filled_up
five-bytes five_bytes
found-there found_there
four-set four_set
four-shown four_shown
frame-answer frame_answer
frame-box frame_box
frame-buffer frame_buffer
frame-bytes frame_bytes
frame-in frame_in
frame-line frame_line
frame-of frame_of
frame-with frame_with
free-bits free_bits
free-none free_none
free-past free_past
from-halt from_halt
front-visible front_visible
gained-block gained_block
gathered-is gathered_is
going-same going_same
guard-with-its-bit guard_with_its_bit
halt-step halt_step
head-same head_same
hidden-all-past hidden_all_past
hidden-past hidden_past
hides-all-past hides_all_past
hides-control hides_control
hides-past hides_past
holds-a-bit holds_a_bit
idle-step idle_step
in-state in_state
is-entry is_entry
is-message is_message
is-null is_null
is-off is_off
is-picture is_picture
is-read-off is_read_off
is-shown is_shown
is-told is_told
is-type is_type
kill-by kill_by
kill-within kill_within
kind-in kind_in
kind-is kind_is
later-assoc later_assoc
later-none later_none
later-or later_or
latest-of latest_of
left-fresh left_fresh
left-line left_line
length-by length_by
length-in length_in
length-made length_made
length-of length_of
length_cut length-cut
level-bytes level_bytes
line-length length-line
listed-into listed_into
lock-area lock_area
lock-areas lock_areas
lock-bit lock_bit
lock-control lock_control
locked-picture locked_picture
low-only low_only
made-block made_block
made-blocks made_blocks
made-line made_line
make-in make_in
memory-control memory_control
message-first message_first
mixed-lt mixed_lt
nack-of nack_of
never-refused never_refused
no-byte-left no_byte_left
no-byte-yet no_byte_yet
no-container no_container
no-digit-left no_digit_left
no-picture no_picture
none-cut none_cut
none-on none_on
not-accepts not_accepts
not-closed not_closed
not-long not_long
not-message not_message
not-opening not_opening
not-true not_true
null-fits null_fits
null-read null_read
null-written null_written
number-below number_below
number-on number_on
odd-out odd_out
of-bytes of_bytes
of-level of_level
of-more of_more
of-take of_take
ok-either ok_either
ok-left ok_left
ok-right ok_right
only-touched only_touched
onward-passed onward_passed
open-within open_within
outside-length length-outside
over-four over_four
over-length length-over
over-one over_one
past-length past_length
past-length-length length-past_length
past-lock-area past_lock_area
past-locks past_locks
power-answer power_answer
power-line power_line
power-off power_off
power-on power_on
pruned-same pruned_same
put-answer put_answer
put-buffer put_buffer
put-into put_into
read-in read_in
ready1-step ready1_step
ready2-step ready2_step
refused-near refused_near
reserved-area reserved_area
rest-after rest_after
rest-told rest_told
rising-area rising_area
rising-beyond rising_beyond
rising-left rising_left
rising-outside rising_outside
rising-pruned rising_pruned
rising-right rising_right
rising-visible rising_visible
said-by said_by
said-other said_other
sak-of sak_of
same-fault same_fault
same-findings same_findings
select-1 select_1
select-2 select_2
selected-1 selected_1
selected-2 selected_2
selected-by selected_by
sent-line sent_line
short-of short_of
shown-at shown_at
shown-from shown_from
size-accepted size_accepted
size-refused size_refused
sized-fails sized_fails
sized-fits sized_fits
sized-meets sized_meets
sized-picture sized_picture
sized-read sized_read
sized-written sized_written
some-room some_room
stored-within stored_within
sum-of-eight sum_of_eight
taken-apart taken_apart
tap-counted tap_counted
tap-number tap_number
text-by text_by
then-three then_three
three-digits three_digits
tlv-line tlv_line
turns-enough turns_enough
two-more two_more
type-of type_of
uid-in uid_in
unhidden-all unhidden_all
up-to-last up_to_last
visible-nil visible_nil
walk-fails walk_fails
walk-over walk_over
walk-passes walk_passes
window-at-50 window_at_50
window-by window_by
window-of window_of
with-crc with_crc
with-digit with_digit
with-high with_high
worked-tags worked_tags
worth-digit worth_digit
write-answer write_answer
write-box write_box
zeros-at zeros_at
""".split("\n") if line)

# Names that are told apart by where they stand: fields of two records, and the name of a folder in a path.
APART = set("code_of_36 crc_of_12_34 crc_of_zeros past_lock_area size_accepted size_refused from_halt window_by".split())

WORD = re.compile(r"[^\s(){}\[\],.;\"|«»]+")
SKIPPED = {".antt": re.compile(r"--(?= |$)[^\n]*"), ".rt": re.compile(r'//[^\n]*|b?"(?:\\.|[^"\\])*"')}


def files():
    for folder, dirs, names in os.walk("crates"):
        dirs[:] = sorted(d for d in dirs if d != "out")
        for name in sorted(names):
            if name.endswith((".antt", ".rt")):
                yield os.path.join(folder, name)


def parts(text, skipped):
    """The text in pieces, each with whether its words are turned."""
    at = 0
    for it in skipped.finditer(text):
        yield text[at:it.start()], True
        yield it.group(0), False
        at = it.end()
    yield text[at:], True


def main():
    if not os.path.isdir("crates"):
        print("respell: run it at the top of the repository", file=sys.stderr)
        return 2
    turned, together = {}, []
    for path in files():
        with open(path, encoding="utf-8") as f:
            text = f.read()
        pieces = list(parts(text, SKIPPED[os.path.splitext(path)[1]]))
        words = {w for piece, own in pieces if own for w in WORD.findall(piece)}
        # a function of src/ may have the name of what it is said to give
        there = words if path.endswith(".antt") else {w for line in re.findall(r"ghost use [^;]*;", text) for w in WORD.findall(line)}
        for old, new in NAMES.items():
            if old in words and new in there and new not in APART:
                together.append(f"{path}: {old} and {new} would be one name")
        turned[path] = text, "".join(WORD.sub(lambda w: NAMES.get(w.group(0), w.group(0)), piece) if own else piece for piece, own in pieces)
    if together:
        print("\n".join(together), file=sys.stderr)
        return 1
    changed = 0
    for path, (text, new) in turned.items():
        if new != text:
            with open(path, "w", encoding="utf-8") as f:
                f.write(new)
            changed += 1
    print(f"respell: {changed} files")
    return 0


if __name__ == "__main__":
    raise SystemExit(main())
