#!/usr/bin/env python3
"""Respells the repository's own definitions and lemmas as the installed Rattle spells names: words in snake case, facts and
types in camel case, a dash between the names of definitions alone.

usage: tools/respell.py          once, right after the kit's port.py, in a checkout of the older spelling

It changes names in specs/ and proofs/, and in clauses and ghost lines of src/; no name of the code is touched, since none has
the old spellings (a capital inside a lower-case word, or a dash). It stops if two names would fall together.
"""

import os
import re
import sys

# facts: what is stated, a type
FACTS = """
Number-back NumberBack  Number-only NumberOnly  Number-length NumberLength
Any-named AnyNamed  Ones-counted OnesCounted  Subset-counts SubsetCounts  Nested-same NestedSame
Mask-determined MaskDetermined  Mask-made MaskMade  Mask-below MaskBelow
Foremost-leads ForemostLeads  Foremost-only ForemostOnly
Frame-back FrameBack  Frame-only FrameOnly  Frame-number FrameNumber  Frame-image FrameImage  Frame-surplus FrameSurplus
Frame-length FrameLength
Box-determined BoxDetermined  Frame-short FrameShort  Closes-by-rule ClosesByRule  Order-free OrderFree
Composed-heard ComposedHeard
"""

# definitions
DEFINITIONS = """
writtenAll written_all  goesOn goes_on  readGroups read_groups  readNumber read_number
setOf set_of  setText set_text
pieceBy piece_by  pieceImage piece_image  pieceNamed piece_named  pieceLeads piece_leads
callImage call_image  callNamed call_named  callLeads call_leads
voteImage vote_image  voteNamed vote_named  voteLeads vote_leads
fieldWord field_word  refusalOf refusal_of  inField in_field  readField read_field
frameNumbers frame_numbers  frameBytes frame_bytes  readImage read_image  readProposal read_proposal  readFrame read_frame
newBox new_box  nextRound next_round  roundOf round_of  inRound in_round  refusedIn refused_in  frameFault frame_fault
ownFault own_fault  openNotes open_notes  badSet bad_set  bestHorizon best_horizon  closedWith closed_with
unheardIn unheard_in  toldMissing told_missing  firstHeard first_heard  estimateIn estimate_in  voiceIn voice_in
firstVoice first_voice  heardOf heard_of  notesAfter notes_after
anyFault any_fault  byRead by_read
"""

# lemmas
LEMMAS = """
length_marked length-marked  length-marked-step length-marked_step  number-length number_length  marked-byte marked_byte
last-by last_by  place-last place_last  place-more place_more  placed-all placed_all
writtenAll-cons written_all-cons  writtenAll-nil written_all-nil  writtenAll-append written_all-append
writtenAll-more written_all-more  told-room told_room  part-is part_is
value-push value_push  value-lt value_lt  at-end at_end  at-fifth at_fifth  last-lead last_lead  last-value last_value
last-is last_is  small-yet small_yet  value-more value_more
digits-after digits_after  lead-marked lead_marked  low-marked low_marked  front-is front_is  value-is value_is
some-digits some_digits  written-split written_split  number-back number_back  read-inv read_inv  groups-only groups_only
number-only number_only
bit-step bit_step  bit-low bit_low  bit-read bit_read  bit-op bit_op  half-below half_below  ones-counted ones_counted
bit-ext bit_ext  none-zero none_zero  shr-none shr_none  maskOf-below mask_of-below  maskOf-ext mask_of-ext
bit-maskOf bit-mask_of  maskOf-bit mask_of-bit  maskOf-all mask_of-all  subset-is subset_is  above-is above_is
within-next within_next  count-bound count_bound  count-le count_le  count-ext count_ext  any-from any_from
any-has any_has  any-ext any_ext  any-point any_point  listed-skip listed_skip  listed-take listed_take
foremost-leads foremost_leads  foremost-only foremost_only  foremost-more foremost_more
piece-path piece_path  call-path call_path  piece-by piece_by_lem  piece-at piece_at_lem  call-by call_by_lem
call-at call_at_lem  named-one named_one  named-two named_two  some-from-ok some_from_ok  none-from-err none_from_err
image-back image_back  head-back head_back  next-inv next_inv  field-only field_only  image-only image_only
head-only head_only  judged-inv judged_inv  end-inv end_inv  fields-are fields_are  field-stop field_stop
image-stop image_stop  image-length image_length  frame-image frame_image  frame-number frame_number
frame-surplus frame_surplus  frame-length frame_length  frame-only frame_only
image-step image_step  image-end image_end  proposal-is proposal_is  proposal-stop proposal_stop  laid-all laid_all
room-from-ok room_from_ok  reads-back reads_back
unless-some unless_some  unless-none unless_none  ok-from-mapped ok_from_mapped  err-from-mapped err_from_mapped
refused-by-box refused_by_box  fault-is fault_is  admits-placed admits_placed  or-end or_end  or-alone or_alone
heard-is heard_is  refused-adds refused_adds  accepted-new accepted_new  accepted-adds accepted_adds  told-on told_on
told-shows told_shows  box-determined box_determined  then-mapped then_mapped  sent-set sent_set
closes-by-rule closes_by_rule  order-free order_free  composed-heard composed_heard
member-only member_only  set-ext set_ext  none-member none_member  none-counted none_counted
inside-counts inside_counts  unheard-below unheard_below  unheard-own unheard_own
frame-fits frame_fits  frame-short frame_short
isSome-plus is_some-plus  isSome-alone is_some-alone  or-none or_none  shown-closes shown_closes  shown-same shown_same
same-voice same_voice
"""

# seen and harmless: functions of src/ that a definition mirrors, of which proofs name the folder, and a lemma of another crate
KNOWN = {"frame_numbers", "read_groups", "read_proposal", "goes_on"}

words = (FACTS + DEFINITIONS + LEMMAS).split()
NEW = dict(zip(words[::2], words[1::2]))
NAME = re.compile(r"[\w'-]+")


def files(root):
    for folder, dirs, names in os.walk(os.path.join(root, "crates")):
        dirs[:] = sorted(d for d in dirs if d != "out")
        for name in sorted(names):
            if name.endswith((".rt", ".antt")):
                yield os.path.join(folder, name)


def main():
    root = sys.argv[1] if len(sys.argv) > 1 else "."
    texts = {}
    for path in files(root):
        with open(path, encoding="utf-8") as f:
            texts[path] = f.read()
    used = {name for path, text in texts.items() if path.endswith(".antt") for name in NAME.findall(text)}
    clashes = sorted((old, new) for old, new in NEW.items() if new in used - KNOWN)
    if len(set(NEW.values())) != len(NEW):
        sys.exit("respell: two old names get one new name")
    for old, new in clashes:
        print(f"respell: {new} stands already, beside {old}")
    if clashes:
        sys.exit(1)
    changed = 0
    for path, text in texts.items():
        told = NAME.sub(lambda m: NEW.get(m.group(0), m.group(0)), text)
        if told != text:
            changed += 1
            with open(path, "w", encoding="utf-8") as f:
                f.write(told)
    print(f"respell: {changed} files")


main()
