//! Ways to make the reference wrong, each in one sentence of document 01, of document 02 or of docs/RECORD.md. The self-test bends the law so and
//! expects a suite to notice.

use crate::report::Bend;

pub const TOO_MANY_RECORDS: Bend = Bend {
    what: "1,001 records are taken",
    bend: |law| law.max_records = 1001,
};

pub const PAIR_BEFORE_COST: Bend = Bend {
    what: "10 comes before 9",
    bend: |law| law.cost_before_pair = false,
};

pub const FIRST_PAIR_NAMED: Bend = Bend {
    what: "10 names the first record with the pair",
    bend: |law| law.later_pair_named = false,
};

pub const LENGTH_BEFORE_VALUE: Bend = Bend {
    what: "11 comes before 15",
    bend: |law| law.value_before_length = false,
};

pub const LENGTH_BEFORE_RECORD: Bend = Bend {
    what: "11 comes before 22 and 23",
    bend: |law| law.record_before_length = false,
};

pub const MORE_SWEEPS: Bend = Bend {
    what: "16 sweeps are taken",
    bend: |law| law.max_sweeps = 16,
};

pub const MORE_VERTICES: Bend = Bend {
    what: "21 vertices are taken",
    bend: |law| law.max_vertices = 21,
};

pub const LENGTH_BEFORE_ZERO_BYTES: Bend = Bend {
    what: "4 comes before 3",
    bend: |law| law.zero_bytes_before_length = false,
};

pub const UPPER_BELOW_COST: Bend = Bend {
    what: "U becomes document 01's, a tour's cost less 1",
    bend: |law| law.below_tour = 1,
};

pub const UPPER_ABOVE_COST: Bend = Bend {
    what: "U becomes a tour's cost and 1",
    bend: |law| law.below_tour = -1,
};

pub const CLOSED_AT_UPPER: Bend = Bend {
    what: "a node closes at a bound equal to U",
    bend: |law| law.equal_bound_stays = false,
};

pub const EQUALS_NEVER_REPLACE: Bend = Bend {
    what: "a later tour of one cost never replaces the best",
    bend: |law| law.equal_replaces = false,
};

pub const EQUALS_ALWAYS_REPLACE: Bend = Bend {
    what: "a later tour of one cost always replaces the best",
    bend: |law| law.only_the_first = false,
};

pub const LAST_OF_EQUALS: Bend = Bend {
    what: "of two tours of one cost the last is kept",
    bend: |law| law.lacking_first = false,
};

pub const LOWEST_LEG_DECIDES: Bend = Bend {
    what: "the lowest-numbered edge in which two tours differ decides which comes first",
    bend: |law| law.highest_decides = false,
};

pub const CEILING_NOT_WITHIN: Bend = Bend {
    what: "a bound equal to the ceiling is not within it",
    bend: |law| law.ceiling_within = false,
};

pub const HIGHER_CEILING: Bend = Bend {
    what: "the ceiling limit is one higher",
    bend: |law| law.max_ceiling += 1,
};

pub const LOWER_CEILING: Bend = Bend {
    what: "the ceiling limit is one lower",
    bend: |law| law.max_ceiling -= 1,
};

pub const FORMER_CEILING: Bend = Bend {
    what: "the ceiling limit is document 01's, 50,000,000",
    bend: |law| law.max_ceiling = 50_000_000,
};

pub const FORMER_CEILING_BYTES: Bend = Bend {
    what: "a program's ceiling has document 01's 4 bytes, and an input under 4 is refused",
    bend: |law| (law.ceiling_bytes, law.ceiling_bytes_read) = (4, 4),
};

pub const HIGH_BYTES_LOST: Bend = Bend {
    what: "of a program's ceiling only the low 4 bytes count",
    bend: |law| law.ceiling_bytes_read = 4,
};

pub const CHEAP_NO_REPLACEMENT: Bend = Bend {
    what: "an edge that nothing can replace is kept at a slack of 4,000,000,000",
    bend: |law| law.no_replacement = Some(4_000_000_000),
};

pub const MULTIPLIERS_NOT_HELD: Bend = Bend {
    what: "a multiplier is not held to its range",
    bend: |law| law.multipliers_held = false,
};

pub const PAIR_TWICE: Bend = Bend {
    what: "a pair may stand twice",
    bend: |law| law.pairs_differ = false,
};

pub const NEXT_JUDGED_FIRST: Bend = Bend {
    what: "a record's next is judged before its own 7 to 10",
    bend: |law| law.next_judged_last = false,
};

pub const REQUIRED_SWAPPED_OUT: Bend = Bend {
    what: "a required edge is swapped out",
    bend: |law| law.required_stay = false,
};

pub const REQUIRED_LEFT_OUT: Bend = Bend {
    what: "a required edge may be left out of a tree",
    bend: |law| law.required_kept = false,
};

pub const EQUAL_ENDS: Bend = Bend {
    what: "both ends may be one vertex",
    bend: |law| law.ends_differ = false,
};

pub const FIRST_MULTIPLIER_FREE: Bend = Bend {
    what: "d(1) may be other than 0",
    bend: |law| law.first_multiplier_zero = false,
};

pub const MARK_THREE: Bend = Bend {
    what: "mark 3 is taken",
    bend: |law| law.max_mark = 3,
};

pub const MULTIPLIERS_RESET: Bend = Bend {
    what: "a node opens with document 01's multipliers, the opening ones",
    bend: |law| law.multipliers_inherited = false,
};

pub const LAST_PASS_GAINS: Bend = Bend {
    what: "multipliers gain after the last pass, before the split",
    bend: |law| law.last_pass_gains = true,
};

pub const ONE_LIST_FOR_BOTH: Bend = Bend {
    what: "all nodes share one list of multipliers",
    bend: |law| law.multipliers_apart = false,
};

pub const CARRIED_NOT_JUDGED: Bend = Bend {
    what: "what a record's nodes carry may be out of range",
    bend: |law| law.carried_fit = false,
};

pub const CARRIED_PAST_N: Bend = Bend {
    what: "what a record's nodes carry past n counts for nothing",
    bend: |law| law.carried_zero_past_n = false,
};

pub const HIGHER_NUMBERED_FIRST: Bend = Bend {
    what: "of two equal edges the higher-numbered is taken",
    bend: |law| law.lower_numbered_first = false,
};

pub const PAST_M_JUDGED: Bend = Bend {
    what: "places past m are judged too",
    bend: |law| law.past_m_ignored = false,
};

pub const LARGER_STEP: Bend = Bend {
    what: "step 10,001 is taken",
    bend: |law| law.max_step = 10_001,
};

pub const HIGHER_COST: Bend = Bend {
    what: "the cost limit is one higher",
    bend: |law| law.max_cost += 1,
};

pub const LOWER_COST: Bend = Bend {
    what: "the cost limit is one lower",
    bend: |law| law.max_cost -= 1,
};

pub const FORMER_COST: Bend = Bend {
    what: "the cost limit is document 01's, 1,000,000",
    bend: |law| law.max_cost = 1_000_000,
};

pub const EXCLUDED_ON_TOP: Bend = Bend {
    what: "the excluded child goes on top",
    bend: |law| law.required_on_top = false,
};

pub const MARKS_FROM_BELOW: Bend = Bend {
    what: "the excluded child has marks made below the required one",
    bend: |law| law.marks_apart = false,
};

pub const LAST_NEXT_NOT_ZERO: Bend = Bend {
    what: "the last next is m + 1",
    bend: |law| law.last_next_zero = false,
};

pub const HIGHER_MULTIPLIER: Bend = Bend {
    what: "the multiplier limit is one higher",
    bend: |law| law.max_multiplier += 1,
};

pub const PAST_M_NOT_ZERO: Bend = Bend {
    what: "the place past m is not zero",
    bend: |law| law.zeros_past_m = false,
};

pub const MULTIPLIERS_OFF_ONCE: Bend = Bend {
    what: "the sum of the multipliers taken off once, not twice",
    bend: |law| law.multipliers_off = 1,
};

pub const FORM_WITHOUT_HEAD: Bend = Bend {
    what: "the writer's form does not ask for the head",
    bend: |law| law.form_wants_head = false,
};

pub const FORM_WITHOUT_ORDER: Bend = Bend {
    what: "the writer's form does not ask for the order of records",
    bend: |law| law.form_wants_order = false,
};

pub const UPPER_NOT_LOWERED: Bend = Bend {
    what: "U stays as it is when a tour is found",
    bend: |law| law.upper_lowered = false,
};

pub const FLAG_OF_TWO: Bend = Bend {
    what: "a record's flag of 2 is taken",
    bend: |law| law.max_flag = 2,
};

pub const DEEPER_STACK: Bend = Bend {
    what: "n + 3 nodes may wait in a record",
    bend: |law| law.nodes_above_vertices = 3,
};

pub const SHALLOWER_STACK: Bend = Bend {
    what: "only one node more than vertices are afloat may wait in a record",
    bend: |law| law.nodes_above_vertices = 1,
};

pub const FEWER_REQUIRED: Bend = Bend {
    what: "node p of a record may have p - 1 required edges",
    bend: |law| law.required_short = 1,
};

pub const JUNK_PAST_DEPTH: Bend = Bend {
    what: "a record's nodes past its depth count for nothing",
    bend: |law| law.zeros_past_depth = false,
};

pub const STRUCK_ROW_FIRST: Bend = Bend {
    what: "a node's row of struck legs comes first",
    bend: |law| law.required_row = 1,
};

pub const BITS_FROM_ONE: Bend = Bend {
    what: "leg k is bit k of a row",
    bend: |law| law.first_bit = 1,
};

pub const LEG_IN_BOTH_ROWS: Bend = Bend {
    what: "a leg may stand in both rows of a node",
    bend: |law| law.rows_apart = false,
};

pub const BITS_PAST_M: Bend = Bend {
    what: "a node's bits past leg m count for nothing",
    bend: |law| law.clear_past_m = false,
};

pub const ONE_ROW_COUNTED: Bend = Bend {
    what: "the free legs are m less the required ones alone",
    bend: |law| law.both_rows_counted = false,
};

pub const RULED_STAYS_ABOVE: Bend = Bend {
    what: "what the lower ceiling rules is ruled so under the higher",
    bend: |law| law.ruled_stays_below = false,
};

pub const DEAD_TOO: Bend = Bend {
    what: "rulings stay where the lower ceiling is dead",
    bend: |law| law.unless_dead = false,
};

pub const LEGS_FROM_ZERO: Bend = Bend {
    what: "a preview counts legs from 0",
    bend: |law| law.first_leg = 0,
};

pub const NEW_MARK_OF_THREE: Bend = Bend {
    what: "a preview takes the mark 3",
    bend: |law| law.max_new_mark = 3,
};

pub const FREE_BEFORE_LEG: Bend = Bend {
    what: "31 comes before 30",
    bend: |law| law.preview_free_last = false,
};

pub const PREVIEW_WITHOUT_MARK: Bend = Bend {
    what: "a preview leaves the mark as it is",
    bend: |law| law.preview_marks = false,
};

pub const STOP_ONE_TOO_EARLY: Bend = Bend {
    what: "the loop ends while one buoy is still apart",
    bend: |law| law.parts_left = 1,
};

pub const STOP_ONE_TOO_LATE: Bend = Bend {
    what: "the loop looks at one leg more",
    bend: |law| law.looked_beyond = 1,
};

pub const REQUIRED_LOOKED_AT: Bend = Bend {
    what: "required legs are looked at in the loop that ends early",
    bend: |law| law.required_first = false,
};

pub const WINDOW_OF_33: Bend = Bend {
    what: "w may be 33",
    bend: |law| law.max_window = 33,
};

pub const ONE_TIME_MORE: Bend = Bend {
    what: "a leg's cost is the greatest of its last w + 1 times",
    bend: |law| law.times_more = 1,
};

pub const WINDOW_ALWAYS_32: Bend = Bend {
    what: "w is always 32",
    bend: |law| law.window_is_asked = false,
};

pub const BEGINS_WITH_ZERO: Bend = Bend {
    what: "a leg's times begin with 0",
    bend: |law| law.begins_empty = false,
};

pub const CHART_AS_A_TIME: Bend = Bend {
    what: "the chart's cost is the first time of a leg",
    bend: |law| law.chart_is_no_time = false,
};

pub const ENTRIES_FROM_ZERO: Bend = Bend {
    what: "39's place is counted from 0",
    bend: |law| law.first_entry = 0,
};

pub const ENTRIES_BEFORE_WINDOW: Bend = Bend {
    what: "39 comes before 38",
    bend: |law| law.window_before_entries = false,
};

pub const HIGHER_STUDENT: Bend = Bend {
    what: "student 65,536 is taken",
    bend: |law| law.max_student += 1,
};

pub const HIGHER_SPREAD: Bend = Bend {
    what: "e of 1,001 is taken",
    bend: |law| law.max_spread += 1,
};

pub const SET_OF_LEGS: Bend = Bend {
    what: "36 looks at the set of legs",
    bend: |law| law.in_sailing_order = false,
};

pub const BUOY_MET_TWICE: Bend = Bend {
    what: "36 lets a buoy be met twice",
    bend: |law| law.each_buoy_once = false,
};

pub const NUMBERS_BEFORE_ORDER: Bend = Bend {
    what: "37 comes before 36",
    bend: |law| law.order_before_numbers = false,
};

pub const REMAINDER_FIRST: Bend = Bend {
    what: "the remainder is taken before the division",
    bend: |law| law.divided_first = false,
};

pub const TWO_E: Bend = Bend {
    what: "the remainder is by 2e",
    bend: |law| law.delays_beside_pairs = 0,
};

pub const DELAY_BEFORE_STEP: Bend = Bend {
    what: "the delay is drawn before the step",
    bend: |law| law.step_first = false,
};

pub const MORE_PAIRS: Bend = Bend {
    what: "17 pairs are taken",
    bend: |law| law.max_pairs += 1,
};

pub const ONE_BUDGET: Bend = Bend {
    what: "all pairs share one allowance",
    bend: |law| law.budget_each = false,
};

pub const BOUND_DIVIDED: Bend = Bend {
    what: "the bound is told in minutes",
    bend: |law| law.bound_scaled = false,
};

pub const CEILING_NOT_SCALED: Bend = Bend {
    what: "the bound is compared with the ceiling itself",
    bend: |law| law.ceiling_scaled = false,
};

pub const PARTS_NOT_COMPARED: Bend = Bend {
    what: "of a bound only whole minutes are compared with the ceiling",
    bend: |law| law.parts_compared = false,
};

pub const NO_REPLACEMENT_OF_ONE: Bend = Bend {
    what: "an edge that nothing can replace is kept at a slack that only q above 1 makes, 8,000,000,000",
    bend: |law| law.no_replacement = Some(8_000_000_000),
};

pub const MULTIPLIERS_TIMES: Bend = Bend {
    what: "multipliers are multiplied by q",
    bend: |law| law.multipliers_in_units = false,
};

pub const STEP_TIMES: Bend = Bend {
    what: "the step is multiplied by q",
    bend: |law| law.step_in_units = false,
};

pub const RANGE_IN_MINUTES: Bend = Bend {
    what: "the range of multipliers counts minutes",
    bend: |law| law.range_counts_units = false,
};

pub const UPPER_NOT_SCALED: Bend = Bend {
    what: "a node's bound is compared with U itself",
    bend: |law| law.upper_scaled = false,
};

pub const UPPER_IN_PARTS: Bend = Bend {
    what: "U becomes q times a tour's cost",
    bend: |law| law.upper_in_minutes = false,
};

pub const COSTS_IN_PARTS: Bend = Bend {
    what: "the cost told is in q-ths",
    bend: |law| law.costs_in_minutes = false,
};

pub const PREVIEW_NOT_SCALED: Bend = Bend {
    what: "a preview takes q for 1",
    bend: |law| law.preview_scaled = false,
};

pub const DENOMINATOR_OF_ZERO: Bend = Bend {
    what: "q may be 0",
    bend: |law| law.min_denominator = 0,
};

pub const HIGHER_DENOMINATOR: Bend = Bend {
    what: "q may be 1,001",
    bend: |law| law.max_denominator += 1,
};

pub const DENOMINATOR_BEFORE_MULTIPLIERS: Bend = Bend {
    what: "32 comes before 12",
    bend: |law| law.denominator_before = 12,
};

pub const DENOMINATOR_BEFORE_CEILING: Bend = Bend {
    what: "32 comes before 13",
    bend: |law| law.denominator_before = 13,
};

pub const DENOMINATOR_BEFORE_STEP: Bend = Bend {
    what: "32 comes before 14",
    bend: |law| law.denominator_before = 14,
};

pub const LEG_BEFORE_DENOMINATOR: Bend = Bend {
    what: "30 and 31 come before 32",
    bend: |law| law.denominator_before_leg = false,
};

pub const DENOMINATOR_NOT_CHECKED: Bend = Bend {
    what: "a record's q counts for nothing",
    bend: |law| law.denominator_checked = false,
};

pub const FLAG_WITHOUT_EFFECT: Bend = Bend {
    what: "a hunt that is asked to lift does not",
    bend: |law| law.lifts_where_asked = false,
};

pub const LIFTED_UNASKED: Bend = Bend {
    what: "every hunt lifts",
    bend: |law| law.lifts_unasked = true,
};

pub const LAST_PASS_LIFTS: Bend = Bend {
    what: "only a node's last pass lifts",
    bend: |law| law.every_pass_lifts = false,
};

pub const RELAXED_POLICY: Bend = Bend {
    what: "the second limit is the relaxed policy's",
    bend: |law| law.complete_policy = false,
};

pub const FIRST_LIMIT_DROPPED: Bend = Bend {
    what: "reduced and replacement costs are no limit",
    bend: |law| law.first_limit = false,
};

pub const SECOND_LIMIT_DROPPED: Bend = Bend {
    what: "support or replacement may become another",
    bend: |law| law.second_limit = false,
};

pub const SECOND_LIMIT_AT_FIRST: Bend = Bend {
    what: "the second limit holds for the edges at vertex 1 too",
    bend: |law| law.second_limit_left_out = false,
};

pub const RISES_FROM_ONE: Bend = Bend {
    what: "a due rises from degree 1 on",
    bend: |law| law.rises_from_degree = 1,
};

pub const RISES_FROM_THREE: Bend = Bend {
    what: "a due rises from degree 3 on",
    bend: |law| law.rises_from_degree = 3,
};

pub const FALLS_TO_ONE: Bend = Bend {
    what: "a due falls at degree 1 alone",
    bend: |law| law.falls_to_degree = 1,
};

pub const FALLS_TO_THREE: Bend = Bend {
    what: "a due falls at degree 3 too",
    bend: |law| law.falls_to_degree = 3,
};

pub const SUPPORT_MOVES: Bend = Bend {
    what: "an end on the support or the replacement moves too",
    bend: |law| law.support_stays = false,
};

pub const ONE_END_MOVES: Bend = Bend {
    what: "end b stays where it is",
    bend: |law| law.second_end_moves = false,
};

pub const SECOND_END_AFTER_FIRST: Bend = Bend {
    what: "end b is treated under end a's new due",
    bend: |law| law.own_dues = false,
};

pub const HIGHEST_SUPPORT: Bend = Bend {
    what: "of equal supports the highest-numbered is taken",
    bend: |law| law.lowest_support = false,
};

pub const HIGHEST_REPLACEMENT: Bend = Bend {
    what: "of equal replacements the highest-numbered is taken",
    bend: |law| law.lowest_replacement = false,
};

pub const REQUIRED_SUPPORT: Bend = Bend {
    what: "a required edge may be a support",
    bend: |law| law.required_no_support = false,
};

pub const UNLIMITED_STAYS: Bend = Bend {
    what: "a due that no edge limits stays",
    bend: |law| law.unlimited_goes_on = false,
};

pub const LIFTS_NOT_HELD: Bend = Bend {
    what: "a change passes the end of the range",
    bend: |law| law.lifts_held = false,
};

pub const LIFTED_AT_UPPER_RULED: Bend = Bend {
    what: "a lifted bound equal to U bars or forces",
    bend: |law| law.lifted_at_upper_stays = false,
};

pub const LIFTED_DEAD_KEEPS: Bend = Bend {
    what: "a 'dead' under lifted dues rules nothing",
    bend: |law| law.lifted_dead_rules = false,
};

pub const LIFTED_DEAD_CLOSES: Bend = Bend {
    what: "a 'dead' under lifted dues closes the node",
    bend: |law| law.lifted_dead_closes = true,
};

pub const DEAD_FORCES: Bend = Bend {
    what: "a 'dead' under lifted dues forces an edge outside the tree",
    bend: |law| law.dead_by_side = false,
};

pub const OTHERS_RULED_TOO: Bend = Bend {
    what: "lifted dues rule of every edge",
    bend: |law| law.own_leg_alone = false,
};

pub const LIFTED_IN_TURN: Bend = Bend {
    what: "an edge is tried under the marks that the rulings before it make",
    bend: |law| law.lifted_together = false,
};

pub const LIFTED_DUES_STAY: Bend = Bend {
    what: "lifted dues stay",
    bend: |law| law.dues_go_back = false,
};

pub const LIFTING_ONE_BIT: Bend = Bend {
    what: "of the number for lifting only the lowest bit counts",
    bend: |law| law.lifting_bits = 1,
};

pub const LIFTING_ONE_BYTE: Bend = Bend {
    what: "of the number for lifting only the lowest byte counts",
    bend: |law| law.lifting_bits = 0xff,
};

pub const LIFTING_HALF: Bend = Bend {
    what: "of the number for lifting only the low half counts",
    bend: |law| law.lifting_bits = u64::from(u32::MAX),
};

pub const LIFTING_AS_SENT: Bend = Bend {
    what: "the number for lifting is kept as it was sent",
    bend: |law| law.lifting_kept_as_bit = false,
};

pub const LIFTING_OF_TWO: Bend = Bend {
    what: "a record's lifting may be 2",
    bend: |law| law.max_lifting = 2,
};

pub const LIFTING_NOT_CHECKED: Bend = Bend {
    what: "a record's lifting may be any number",
    bend: |law| law.max_lifting = u64::MAX,
};

pub const FEWER_NAMES: Bend = Bend {
    what: "8 is no name",
    bend: |law| law.max_name = 7,
};

pub const NAME_BEFORE_OPEN: Bend = Bend {
    what: "33 comes before 20 in save",
    bend: |law| law.open_before_name = false,
};

pub const FIRST_SAVE_STAYS: Bend = Bend {
    what: "a save replaces nothing",
    bend: |law| law.save_replaces = false,
};

pub const BACK_OF_NEXT_NAME: Bend = Bend {
    what: "back brings what the next name has",
    bend: |law| law.back_of_own_name = false,
};

pub const BACK_KEEPS_OPEN: Bend = Bend {
    what: "back leaves an open search as it is",
    bend: |law| law.back_replaces = false,
};

pub const BACK_EMPTIES: Bend = Bend {
    what: "back empties its place",
    bend: |law| law.back_keeps_place = false,
};

pub const CLOSE_EMPTIES: Bend = Bend {
    what: "closing empties the places",
    bend: |law| law.close_keeps_places = false,
};

pub const NAMED_PLACE_CHECKED: Bend = Bend {
    what: "24 tests the named place alone",
    bend: |law| law.every_place_checked = false,
};

pub const SCAN_FROM_THE_LAST: Bend = Bend {
    what: "a turn looks at the place last served first",
    bend: |law| law.turn_skips = 0,
};

pub const ALWAYS_FROM_ONE: Bend = Bend {
    what: "every turn begins at place 1",
    bend: |law| law.after_the_last = false,
};

pub const LAST_NOT_STORED: Bend = Bend {
    what: "a turn does not become the last",
    bend: |law| law.last_kept = false,
};

pub const FINISHED_SERVED: Bend = Bend {
    what: "a finished hunt gets turns",
    bend: |law| law.finished_passed_over = false,
};

pub const ONE_NODE_MORE: Bend = Bend {
    what: "a turn gives p + 1 nodes",
    bend: |law| law.nodes_more = 1,
};

pub const IDLE_FORGETS: Bend = Bend {
    what: "an idle turn forgets the place last served",
    bend: |law| law.idle_keeps_last = false,
};

pub const IDLE_BEFORE_ZERO: Bend = Bend {
    what: "a turn of 0 nodes is idle where no hunt is unfinished",
    bend: |law| law.zero_refused_idle = false,
};

pub const HIGHEST_FREE: Bend = Bend {
    what: "the free place with the highest number is taken",
    bend: |law| law.smallest_free = false,
};

pub const FINISHED_GIVE_WAY: Bend = Bend {
    what: "41 only where eight are unfinished",
    bend: |law| law.finished_are_held = false,
};

pub const OPENING_BEFORE_FULL: Bend = Bend {
    what: "an opening's own refusals come before 41",
    bend: |law| law.full_before_opening = false,
};

pub const PLACE_ZERO: Bend = Bend {
    what: "place 0 is an empty place",
    bend: |law| law.first_place = 0,
};

pub const SEVEN_PLACES_CHECKED: Bend = Bend {
    what: "24 does not look at place 8",
    bend: |law| law.places_checked = 7,
};

pub const LAST_OF_NINE: Bend = Bend {
    what: "a dispatcher's last served may be 9",
    bend: |law| law.max_last = 9,
};

pub const STORED_COUNT: Bend = Bend {
    what: "a former count was one higher",
    bend: |law| law.stored_nodes = 1,
};

pub const STORED_VALUE: Bend = Bend {
    what: "a former best cost was one higher",
    bend: |law| law.stored_value = 1,
};

pub const STORED_REFUSAL: Bend = Bend {
    what: "a former refusal had another number",
    bend: |law| law.stored_number = 1,
};

pub const STORED_BYTE: Bend = Bend {
    what: "the last byte of a list that was lent was another",
    bend: |law| law.stored_byte = 1,
};

pub const ASHORE_BYTE_OF_TWO: Bend = Bend {
    what: "a byte of 2 says ashore",
    bend: |law| law.max_ashore = 2,
};

pub const FIRST_ASHORE: Bend = Bend {
    what: "buoy 1 may be ashore",
    bend: |law| law.first_afloat = false,
};

pub const TWO_AFLOAT: Bend = Bend {
    what: "two buoys afloat are enough",
    bend: |law| law.least_afloat = 2,
};

pub const ASHORE_OF_ANY_LENGTH: Bend = Bend {
    what: "the list ashore may have any length",
    bend: |law| law.ashore_length = false,
};

pub const ASHORE_BEFORE_MULTIPLIERS: Bend = Bend {
    what: "35 comes before 12",
    bend: |law| law.ashore_before = 12,
};

pub const ASHORE_BEFORE_CEILING: Bend = Bend {
    what: "35 comes before 13",
    bend: |law| law.ashore_before = 13,
};

pub const ASHORE_BEFORE_STEP: Bend = Bend {
    what: "35 comes before 14",
    bend: |law| law.ashore_before = 14,
};

pub const ASHORE_BEFORE_DENOMINATOR: Bend = Bend {
    what: "35 comes before 32",
    bend: |law| law.ashore_before = 32,
};

pub const LEG_BEFORE_ASHORE: Bend = Bend {
    what: "30 and 31 come before 35",
    bend: |law| law.ashore_before_leg = false,
};

pub const DUES_ASHORE_NOT_JUDGED: Bend = Bend {
    what: "12 does not look at a due ashore",
    bend: |law| law.dues_ashore_judged = false,
};

pub const TOUCHED_STAY: Bend = Bend {
    what: "legs that touch a buoy ashore keep their marks",
    bend: |law| law.touched_struck = false,
};

pub const TOUCHED_REQUIRED_STAY: Bend = Bend {
    what: "a required leg that touches a buoy ashore stays required",
    bend: |law| law.touched_required_struck = false,
};

pub const TOUCHED_RULED_BY_MARK: Bend = Bend {
    what: "a leg that touches a buoy ashore is ruled by its mark",
    bend: |law| law.touched_ruled_struck = false,
};

pub const TOUCHED_IN_TREE: Bend = Bend {
    what: "the tree's list has a required leg that touches a buoy ashore",
    bend: |law| law.touched_in_no_tree = false,
};

pub const FREE_BY_LIST: Bend = Bend {
    what: "31 goes by the mark that counts",
    bend: |law| law.free_by_chart = false,
};

pub const DUE_ASHORE_COUNTS: Bend = Bend {
    what: "a due ashore counts",
    bend: |law| law.due_ashore_zero = false,
};

pub const DUE_ASHORE_GAINS: Bend = Bend {
    what: "a due ashore gains",
    bend: |law| law.due_ashore_stays = false,
};

pub const LEGS_OF_ALL: Bend = Bend {
    what: "a 1-tree has as many legs as there are buoys",
    bend: |law| law.legs_of_afloat = false,
};

pub const ROUND_OF_ALL: Bend = Bend {
    what: "a round has as many legs as there are buoys",
    bend: |law| law.round_of_afloat = false,
};

pub const AGREE_WHATEVER_LIST: Bend = Bend {
    what: "two hunts agree whatever their lists",
    bend: |law| law.agree_by_list = false,
};

pub const BUDGET_OF_TOUCHED: Bend = Bend {
    what: "the allowance counts free legs that touch a buoy ashore",
    bend: |law| law.budget_of_untouched = false,
};

pub const SAVED_WITHOUT_LIST: Bend = Bend {
    what: "back forgets the list ashore",
    bend: |law| law.saved_with_list = false,
};

pub const ADDED_WITHOUT_LIST: Bend = Bend {
    what: "a dispatcher forgets the list ashore",
    bend: |law| law.added_with_list = false,
};

pub const COMPARED_WITHOUT_LIST: Bend = Bend {
    what: "compare forgets the list ashore",
    bend: |law| law.compared_with_list = false,
};

pub const LIFTED_WITHOUT_LIST: Bend = Bend {
    what: "lifting forgets the list ashore",
    bend: |law| law.lifted_with_list = false,
};

pub const CARRIED_OF_ALL: Bend = Bend {
    what: "a node carries the multipliers of all vertices",
    bend: |law| law.carried_of_afloat = false,
};

pub const CARRIED_PAST_AFLOAT: Bend = Bend {
    what: "what a node carries past the vertices afloat counts for nothing",
    bend: |law| law.carried_zero_past_afloat = false,
};

pub const TOUCHED_NOT_CHECKED: Bend = Bend {
    what: "in a record's node an edge that touches a vertex ashore may have any mark",
    bend: |law| law.touched_excluded = false,
};

pub const ASHORE_PAST_N: Bend = Bend {
    what: "a record's list ashore past n counts for nothing",
    bend: |law| law.ashore_zero_past_n = false,
};

pub const ASHORE_NOT_CHECKED: Bend = Bend {
    what: "a record's list ashore may be any",
    bend: |law| law.ashore_checked = false,
};

pub const DEPTH_OF_ALL: Bend = Bend {
    what: "a record's depth may be two above all vertices, afloat or not",
    bend: |law| law.depth_of_afloat = false,
};

/// Misreadings of C-13 that a hunt shows, on the reference and on the library.
pub const OF_LIFTING: [Bend; 24] = [
    FLAG_WITHOUT_EFFECT,
    LIFTED_UNASKED,
    RELAXED_POLICY,
    FIRST_LIMIT_DROPPED,
    SECOND_LIMIT_DROPPED,
    RISES_FROM_THREE,
    FALLS_TO_ONE,
    ONE_END_MOVES,
    SECOND_END_AFTER_FIRST,
    REQUIRED_SUPPORT,
    UNLIMITED_STAYS,
    LIFTS_NOT_HELD,
    LIFTED_AT_UPPER_RULED,
    LIFTED_DEAD_KEEPS,
    LIFTED_DEAD_CLOSES,
    DEAD_FORCES,
    OTHERS_RULED_TOO,
    LIFTED_IN_TURN,
    LIFTED_DUES_STAY,
    HIGHER_MULTIPLIER,
    CEILING_NOT_SCALED,
    LIFTING_ONE_BIT,
    LIFTING_ONE_BYTE,
    LIFTING_HALF,
];

/// Misreadings of which lists ashore a call takes.
pub const OF_LIST: [Bend; 4] = [
    ASHORE_BYTE_OF_TWO,
    FIRST_ASHORE,
    TWO_AFLOAT,
    ASHORE_OF_ANY_LENGTH,
];

/// Misreadings of C-17's fractions of a minute that trees and rulings show.
pub const OF_PARTS: [Bend; 5] = [
    BOUND_DIVIDED,
    CEILING_NOT_SCALED,
    PARTS_NOT_COMPARED,
    MULTIPLIERS_TIMES,
    RANGE_IN_MINUTES,
];

/// Misreadings of the two branches of a node and of the multipliers that they inherit, document 02, C-16.
pub const OF_INHERITED: [Bend; 6] = [
    EXCLUDED_ON_TOP,
    MULTIPLIERS_RESET,
    LAST_PASS_GAINS,
    ONE_LIST_FOR_BOTH,
    MULTIPLIERS_NOT_HELD,
    MARKS_FROM_BELOW,
];

/// Misreadings that whole lists of calls show, on the reference and on the library.
pub const OF_CALLS: [Bend; 36] = joined(&[
    &OF_LIST,
    &OF_INHERITED,
    &[
        UPPER_BELOW_COST,
        UPPER_NOT_LOWERED,
        MORE_SWEEPS,
        LARGER_STEP,
        HIGHER_CEILING,
        FIRST_MULTIPLIER_FREE,
        LENGTH_BEFORE_RECORD,
        HIGHER_NUMBERED_FIRST,
        COSTS_IN_PARTS,
        UPPER_IN_PARTS,
        STEP_TIMES,
        DENOMINATOR_OF_ZERO,
        DENOMINATOR_BEFORE_STEP,
        FLAG_WITHOUT_EFFECT,
        LIFTED_UNASKED,
        LAST_PASS_LIFTS,
        LIFTED_DUES_STAY,
        LIFTING_AS_SENT,
        ASHORE_BEFORE_DENOMINATOR,
        TOUCHED_STAY,
        TOUCHED_REQUIRED_STAY,
        DUE_ASHORE_COUNTS,
        DUE_ASHORE_GAINS,
        LEGS_OF_ALL,
        ROUND_OF_ALL,
        LIFTED_WITHOUT_LIST,
    ],
]);

/// Lists of bends as one; N is the sum of their lengths.
pub const fn joined<const N: usize>(lists: &[&[Bend]]) -> [Bend; N] {
    let mut all = [lists[0][0]; N];
    let (mut list, mut place, mut i) = (0, 0, 0);
    while list < lists.len() {
        while place < lists[list].len() {
            all[i] = lists[list][place];
            (place, i) = (place + 1, i + 1);
        }
        (list, place) = (list + 1, 0);
    }
    assert!(i == N);
    all
}
