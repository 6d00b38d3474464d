#!/usr/bin/env python3
"""Brings the names of definitions, fields and lemmas of this repository to the spelling that today's Rattle asks for.

usage: python3 tools/respell.py        at the top of the repository, once, after the toolchain's own script port.py

Words are in snake case; in the name of a lemma a dash joins two words that are defined elsewhere. It goes by the table
below, over whole names, in specs/, in proofs/, and in src/ and must-fail/ (where a name with a dash stands in clauses
and ghost items alone). Strings, comments, inputs and outputs stay as they are. It says which new names were already in
use in a file that it changed, so that they can be looked at.
"""

import glob
import re

# old name, new name
NAMES = """
a-contract a_contract
a-line a_line
a-node a_node
added-to added_to
added-to-more added_to_more
adds-up adds_up
ahead-means ahead_means
all-cents all_cents
amount-of amount_of
answer-adds-up answer_adds_up
at-limits at_limits
before-itself before_itself
before-next before_next
both-rows both_rows
both-sound both_sound
by-place-at by_place_at
by-place-is by_place_is
by-prices by_prices
capacity-on capacity_on
carried-by carried_by
carried-least carried_least
cases-from cases_from
cents-of cents_of
chain-apart chain_apart
chain-drop chain_drop
chain-fault chain_fault
chain-from-reached chain_from_reached
chain-lines chain_lines
chain-one chain_one
chain-rows chain_rows
chain-short chain_short
circle-endless circle_endless
circle-leads circle_leads
circle-refused circle_refused
clean-decimal clean_decimal
clean-next clean_next
clean-signed clean_signed
contract-line contract_line
contract-parts contract_parts
contract-some contract_some
contract-text contract_text
count-all count_all
count-below count_below
count-line count_line
credit-fault credit_fault
credit-refusal credit_refusal
crediting-all crediting_all
crediting-fault crediting_fault
crediting-more crediting_more
crediting-none crediting_none
crediting-room crediting_room
decimal-lacks decimal_lacks
deviation-within deviation_within
dispatch-deviation dispatch_deviation
dispatch-price dispatch_price
err-one err_one
fails-one fails_one
field-front field_front
fifteen-minute-deviation fifteen_minute_deviation
fifteen-minute-price fifteen_minute_price
first-by-rank first_by_rank
first-fault first_fault
folded-joined folded_joined
folding-all folding_all
folding-more folding_more
folding-none folding_none
half-leg half_leg
half-up-high half_up_high
half-up-is half_up_is
half-up-le half_up_le
half-up-low half_up_low
half-up-near half_up_near
halfway-nearest halfway_nearest
head-fault head_fault
head-inside head_inside
head-row head_row
high-leg high_leg
inner-legs-cancel inner_legs_cancel
joining-ends joining_ends
joining-leads joining_leads
joining-passes joining_passes
lacks-tail lacks_tail
largest-all largest_all
largest-at largest_at
largest-cent largest_cent
largest-cents largest_cents
largest-exact largest_exact
largest-law largest_law
largest-near largest_near
largest-only largest_only
last-sound last_sound
layer-word layer_word
leading-to leading_to
leads-to leads_to
least-cons least_cons
left-of left_of
leg-cents leg_cents
leg-le leg_le
legs-cancel legs_cancel
length-by-place length-by_place
low-leg low_leg
lowest-none lowest_none
lowest-one lowest_one
mag-small mag_small
middle-leg middle_leg
minus-text minus_text
mul-step mul_step
natAbs-signed nat_abs-signed
natAbs-times nat_abs_times
nearest-amounts nearest_amounts
nearest-halfway nearest_halfway
nearest-law nearest_law
nearest-le nearest_le
nearest-only nearest_only
nearest-within nearest_within
next-part next_part
next-text next_text
no-contract no_contract
no-minus-nothing no_minus_nothing
no-minus-zero no_minus_zero
no-next no_next
no-price no_price
no-rest no_rest
no-row-twice no_row_twice
no-text-from-padded no_text_from_padded
no-text-from-valued no_text_from_valued
node-fault node_fault
node-leg node_leg
node-leg-le node_leg_le
node-line node_line
node-parts node_parts
node-some node_some
node-text node_text
none-at-end none_at_end
none-leads none_leads
none-meets none_meets
not-both not_both
number-five number_five
number-part number_part
ok-not-err ok_not_err
one-cent one_cent
one-contract one_contract
one-decimal one_decimal
one-if one_if
one-if-le one_if_le
one-next one_next
one-node one_node
one-signed one_signed
one-step one_step
others-are others_are
outer-legs outer_legs
over-deviation over_deviation
over-limit over_limit
over-price over_price
owed-half-leg owed_half_leg
owed-high-leg owed_high_leg
owed-low-leg owed_low_leg
owed-middle-leg owed_middle_leg
owed-quantity owed_quantity
owed-rows owed_rows
parts-text parts_text
plain-mean plain_mean
plain-nearest plain_nearest
price-part price_part
price-refusal price_refusal
price-text price_text
price-within price_within
printed-all printed_all
printed-more printed_more
printed-none printed_none
product-fits product_fits
rank-apart rank_apart
rank-of rank_of
rank-within rank_within
ranks-below ranks_below
rate-at rate_at
rate-cent rate_cent
rate-law rate_law
reached-from-chain reached_from_chain
reached-up reached_up
reaches-none reaches_none
refusal-line refusal_line
refusal-words refusal_words
refused-weights refused_weights
report-passed report_passed
report-refused report_refused
row-credit row_credit
row-credit-le row_credit_le
row-fault row_fault
rows-left-chain rows_left_chain
running-all running_all
running-at running_at
running-cent running_cent
running-cents running_cents
running-exact running_exact
running-law running_law
running-near running_near
same-node same_node
schedule-fault schedule_fault
scheduled-place scheduled_place
share-at share_at
signed-apart signed_apart
signed-cent signed_cent
signed-self signed_self
signed-zero signed_zero
some-none some_none
some-row some_row
sound-chain sound_chain
sound-fails sound_fails
sound-falls sound_falls
sound-inside sound_inside
sound-node sound_node
sound-of sound_of
sound-row sound_row
spare-all spare_all
spare-split spare_split
spare-within spare_within
table-refusal table_refusal
text-from-valued text_from_valued
three-nodes three_nodes
total-deviation total_deviation
total-from total_from
total-within total_within
true-from-told true_from_told
two-rows two_rows
under-price under_price
unpadded-decimal unpadded_decimal
unseen-falls unseen_falls
upto-at upto_at
upto-lt upto_lt
upto-more upto_more
upto-ones upto_ones
upto-part upto_part
upto-same upto_same
upto-steps upto_steps
upto-up upto_up
value-fits value_fits
value-le value_le
value-step value_step
value-take value_take
walking-circle walking_circle
walking-ends walking_ends
walking-more walking_more
walking-none walking_none
walking-stopped walking_stopped
weight-of weight_of
weighted-mean weighted_mean
weighted-nearest weighted_nearest
weighted-price weighted_price
weighted-price-le weighted_price_le
weighted-sum weighted_sum
weighted-sum-le weighted_sum_le
wholes-le wholes_le
with-line with_line
with-line-more with_line_more
within-bounds within_bounds
within-rows within_rows
word-is word_is
"""

TABLE = dict(line.split() for line in NAMES.split("\n") if line)
WORD = re.compile(r"[\w'ℕℤ]+(?:-[\w'ℕℤ*]+)*")
# what is not a name: strings, and comments to the end of the line (`--` in antt, `//` in Rattle)
PLAIN = re.compile(r'"(?:[^"\\\n]|\\.)*"|//[^\n]*|(?:(?<=\s)|^)--[^\n]*', re.M)


def respelled(text):
    """The text with each name of the table turned, outside strings and comments."""
    parts, at = [], 0
    for plain in PLAIN.finditer(text):
        parts += [turned(text[at : plain.start()]), plain.group()]
        at = plain.end()
    return "".join(parts + [turned(text[at:])])


def turned(code):
    return WORD.sub(lambda word: TABLE.get(word.group(), word.group()), code)


def names_in(text):
    return set(WORD.findall(PLAIN.sub(" ", text)))


def main():
    news = list(TABLE.values())
    assert len(set(news)) == len(news), "two names fall together"
    patterns = ["specs/**/*.antt", "proofs/**/*.antt", "src/**/*.rt", "must-fail/*.edit"]
    changed = 0
    for pattern in patterns:
        for path in sorted(glob.glob(f"crates/*/{pattern}", recursive=True)):
            old = open(path, encoding="utf-8").read()
            new = respelled(old)
            if new == old:
                continue
            changed += 1
            met = sorted(names_in(old) & {TABLE[name] for name in names_in(old) if name in TABLE})
            if met:
                print(f"look: {path}: already in use: {', '.join(met)}")
            open(path, "w", encoding="utf-8").write(new)
    print(f"respell: {changed} files changed, {len(TABLE)} names")


if __name__ == "__main__":
    main()
