//! What documents 01 and 02 and, of a record's check, docs/RECORD.md fix and a reader could get wrong, as a
//! value. Every suite runs with `Law::AS_WRITTEN`; the self-test bends one field and expects the
//! suite to notice.

#[derive(Clone, Copy, Debug)]
pub struct Law {
    /// "n from 3 to 20"
    pub max_vertices: usize,
    /// C-14: "Cost runs from −100,000,000 to 100,000,000"
    pub max_cost: i64,
    /// "Its mark is 0 free, 1 required or 2 struck."
    pub max_mark: u8,
    /// "a < b", not a ≤ b
    pub ends_differ: bool,
    /// "no pair twice"
    pub pairs_differ: bool,
    /// "places past m count for nothing"
    pub past_m_ignored: bool,
    /// our choice for what is read: zeros past m
    pub zeros_past_m: bool,

    /// "record count r (u16, at most 1,000)"
    pub max_records: usize,
    /// 3 comes before 4
    pub zero_bytes_before_length: bool,
    /// "A record's next is judged after its own 7 to 10."
    pub next_judged_last: bool,
    /// 10's place is the later of the two records
    pub later_pair_named: bool,
    /// 9 comes before 10
    pub cost_before_pair: bool,
    /// "each next is k + 1, the last 0"
    pub last_next_zero: bool,
    /// 15 comes before 11
    pub value_before_length: bool,
    /// the writer's form has its head at 1, or 0 where m = 0
    pub form_wants_head: bool,
    /// the writer's form has edge k in record k
    pub form_wants_order: bool,

    /// "whole numbers, −1,000,000 to 1,000,000"
    pub max_multiplier: i64,
    /// "d(1) = 0"
    pub first_multiplier_zero: bool,
    /// "less twice the sum of all dues"
    pub multipliers_off: i64,
    /// "the one that lacks the highest-numbered leg in which they differ comes first"
    pub lower_numbered_first: bool,
    /// "It has every required leg"
    pub required_kept: bool,

    /// C-14: "the ceiling from −5,000,000,000 to 5,000,000,000"
    pub max_ceiling: i64,
    /// "at or below the ceiling": a bound equal to it is within
    pub ceiling_within: bool,
    /// a required edge is not swapped out
    pub required_stay: bool,
    /// what the bound gains without an edge that every 1-tree has: there is no such number, it is forced
    /// under every ceiling
    pub no_replacement: Option<i64>,

    /// C-11: legs are "1 to m"
    pub first_leg: usize,
    /// C-11: "the new mark .. 1 or 2"
    pub max_new_mark: u32,
    /// C-11: 31 follows 30
    pub preview_free_last: bool,
    /// C-11: "a copy of the chart with that mark"
    pub preview_marks: bool,

    /// C-17: "a denominator q, 1 to 1,000"
    pub min_denominator: u64,
    pub max_denominator: u64,
    /// C-17: "dues and step count in q-ths": neither is multiplied
    pub multipliers_in_units: bool,
    pub step_in_units: bool,
    /// C-17: "The due range counts units."
    pub range_counts_units: bool,
    /// C-17: "the bound is scaled likewise", and answered so
    pub bound_scaled: bool,
    /// C-17: "it is compared with q × ceiling"
    pub ceiling_scaled: bool,
    /// C-17: and all of it is compared, not its whole minutes alone
    pub parts_compared: bool,
    /// C-17: U is a ceiling, in minutes too
    pub upper_scaled: bool,
    /// C-17: "the costs of rounds stay in minutes", and so does what is made of them
    pub costs_in_minutes: bool,
    pub upper_in_minutes: bool,
    /// C-17: the preview takes q
    pub preview_scaled: bool,
    /// C-17: 32 is "tested after 14": before no other number
    pub denominator_before: u32,
    /// C-17: "in the preview, before 30"
    pub denominator_before_leg: bool,
    /// C-17: a record's q is such as an opening accepts
    pub denominator_checked: bool,

    /// C-13: "Add the SIMPLE change", where it is asked for and nowhere else
    pub lifts_where_asked: bool,
    pub lifts_unasked: bool,
    /// C-13: "The machine in document 01 is read with this change": in every pass of a node
    pub every_pass_lifts: bool,
    /// C-13: "complete policy"
    pub complete_policy: bool,
    /// C-13: lines I1 and D1, lines I2 and D2, and these only "if j ≠ 1"
    pub first_limit: bool,
    pub second_limit: bool,
    pub second_limit_left_out: bool,
    /// C-13: "deg_T(i) ≥ 2" of an edge outside the tree, "≤ 2" of one inside
    pub rises_from_degree: usize,
    pub falls_to_degree: usize,
    /// C-13: "i ∉ {1,k,l}"
    pub support_stays: bool,
    /// C-13: end b is treated too
    pub second_end_moves: bool,
    /// C-13: "both from the reduced and replacement costs under the pass's own dues"
    pub own_dues: bool,
    /// C-13: "Of several support or replacement legs equally good, the lowest-numbered is taken"
    pub lowest_support: bool,
    pub lowest_replacement: bool,
    /// C-13: "a required leg is never a support"
    pub required_no_support: bool,
    /// C-13: "Where no leg limits a change the due goes to the end of its range"
    pub unlimited_goes_on: bool,
    /// C-13: "no change passes that end"
    pub lifts_held: bool,
    /// C-13: "exactly when the definition in Rulings says so": a bound equal to U is within
    pub lifted_at_upper_stays: bool,
    /// C-13: "A 'dead' under lifted dues bars or forces it too": it does not close the node, and which of both the tree says
    pub lifted_dead_rules: bool,
    pub lifted_dead_closes: bool,
    pub dead_by_side: bool,
    /// C-13: a leg "is tried under its lifted dues", and they rule of no other
    pub own_leg_alone: bool,
    /// C-13: "Lifted rulings are applied with the pass's own"
    pub lifted_together: bool,
    /// C-13: "dues go back afterwards"
    pub dues_go_back: bool,
    /// C-13: "A yes or no": a number that counts where any of these bits is set; and it is kept as 0 or 1
    pub lifting_bits: u64,
    pub lifting_kept_as_bit: bool,
    /// C-13: a record's is no higher
    pub max_lifting: u64,

    /// C-20: "35 when a byte is above 1, buoy 1 is ashore, or fewer than three are afloat"
    pub max_ashore: u8,
    pub first_afloat: bool,
    pub least_afloat: usize,
    /// C-20: "The list's length comes under 11."
    pub ashore_length: bool,
    /// C-20: "it follows 32": it is tested before no other number, but for the preview's 30
    pub ashore_before: u32,
    /// C-20: "in the preview, comes before 30"
    pub ashore_before_leg: bool,
    /// C-20: 12 judges all dues, those of buoys ashore too
    pub dues_ashore_judged: bool,
    /// C-20: "A leg touching such a buoy counts as struck, whatever its mark"
    pub touched_struck: bool,
    pub touched_required_struck: bool,
    /// C-20: and is ruled and told so: 4, and no leg of a tree
    pub touched_ruled_struck: bool,
    pub touched_in_no_tree: bool,
    /// C-20: "only the preview's 31 still goes by the mark in the chart"
    pub free_by_chart: bool,
    /// C-20: "the buoy's due counts as 0 and no pass changes it"
    pub due_ashore_zero: bool,
    pub due_ashore_stays: bool,
    /// C-20: "rounds and 1-trees are over the afloat buoys, with as many legs as there are afloat"
    pub legs_of_afloat: bool,
    pub round_of_afloat: bool,
    /// C-20: "two hunts agree when their lists are the same"
    pub agree_by_list: bool,
    /// C-20: the legs that are free when a hunt opens, by which the allowance is counted, touch no buoy ashore
    pub budget_of_untouched: bool,
    /// C-20: "Tree, rule, preview and opening take a list": a hunt keeps it, saved and brought back, at a dispatcher's place, compared, lifted
    pub saved_with_list: bool,
    pub added_with_list: bool,
    pub compared_with_list: bool,
    pub lifted_with_list: bool,

    /// C-12: "ends as soon as those buoys are connected": with no part left to join
    pub parts_left: usize,
    /// C-12: and looks at no leg beyond
    pub looked_beyond: usize,
    /// C-12: "the required legs among them are all taken first"
    pub required_first: bool,

    /// C-15: "every leg barred or forced under the higher is ruled the same under the lower"
    pub ruled_stays_below: bool,
    /// C-15: "unless the lower is dead"
    pub unless_dead: bool,

    /// C-14: "Program input has an i64 little-endian ceiling", 8 bytes
    pub ceiling_bytes: usize,
    /// C-14: of those bytes, so many count
    pub ceiling_bytes_read: usize,
    /// C-22: "w from 1 to 32"
    pub max_window: usize,
    /// C-22: "its last w times", and so many more
    pub times_more: usize,
    /// C-22: w is the caller's, not always the most
    pub window_is_asked: bool,
    /// C-22: "A leg with fewer sailings uses those it has", with nothing beside them
    pub begins_empty: bool,
    /// C-22: the chart's cost is no time
    pub chart_is_no_time: bool,
    /// C-22: the place is given "from 1"
    pub first_entry: usize,
    /// C-22: 38, "then 39"
    pub window_before_entries: bool,
    /// C-21: "A student number, 0 to 65,535"
    pub max_student: u64,
    /// C-21: "e is 0 to 1,000"
    pub max_spread: u64,
    /// C-21: "a round .. in sailing order", not a set of legs
    pub in_sailing_order: bool,
    /// C-21: "of all the chart's buoys": each is come to once
    pub each_buoy_once: bool,
    /// C-21: 37 comes after 36
    pub order_before_numbers: bool,
    /// C-21: "s divided by 65,536, rounded down", and then the remainder
    pub divided_first: bool,
    /// C-21: "by 2e + 1"
    pub delays_beside_pairs: u64,
    /// C-21: "each leg first makes s .."
    pub step_first: bool,
    /// C-21: "up to 16 pairs"
    pub max_pairs: usize,
    /// C-21: "an allowance that each pair has in full"
    pub budget_each: bool,

    /// "sweeps (0 to 15)"
    pub max_sweeps: u32,
    /// "a step (0 to 10,000)"
    pub max_step: u32,
    /// C-23: "On finding a round the ceiling becomes its cost and not one less"
    pub below_tour: i64,
    /// U is lowered at all
    pub upper_lowered: bool,
    /// "bound above U: the node closes", not a bound equal to it
    pub equal_bound_stays: bool,
    /// C-23: "a later round of that cost replaces the best"
    pub equal_replaces: bool,
    /// C-23: "if it comes first"
    pub only_the_first: bool,
    /// C-23: "the one that lacks" the leg, not the one that has it
    pub lacking_first: bool,
    /// C-23: "the highest-numbered leg in which they differ"
    pub highest_decides: bool,
    /// C-16: "A piled node now carries the dues that its parent had", and is not reset to the opening ones
    pub multipliers_inherited: bool,
    /// C-16: those "after its last pass": in the last pass nothing gains
    pub last_pass_gains: bool,
    /// C-16: "Both branches see the same parent dues, whatever the first branch did."
    pub multipliers_apart: bool,
    /// "held to its range"
    pub multipliers_held: bool,
    /// "on top, that leg required"
    pub required_on_top: bool,
    /// the excluded node has the marks that its parent had
    pub marks_apart: bool,
    /// 22 and 23 come before 11
    pub record_before_length: bool,

    /// C-24: "after the one last served": the scan begins so many places behind it
    pub turn_skips: usize,
    /// C-24: the cyclic order goes on from the one last served, and does not begin at place 1 each time
    pub after_the_last: bool,
    /// C-24: a turn's place becomes the one last served
    pub last_kept: bool,
    /// C-24: "the next unfinished hunt"
    pub finished_passed_over: bool,
    /// C-24: "gives p nodes", and so many more
    pub nodes_more: u64,
    /// C-24: "a turn changes nothing" where all are finished
    pub idle_keeps_last: bool,
    /// C-24: 40 also where no hunt is unfinished
    pub zero_refused_idle: bool,
    /// C-24: "the free place with the smallest number"
    pub smallest_free: bool,
    /// C-24: "while eight are held": a finished hunt still holds its place
    pub finished_are_held: bool,
    /// C-24: 41 comes before the opening's own refusals
    pub full_before_opening: bool,
    /// C-24: "its places 1 to 8"
    pub first_place: usize,
    /// the check of a dispatcher covers all eight places
    pub places_checked: usize,
    /// its last served is at most 8
    pub max_last: usize,

    /// a record's flags are 0 or 1
    pub max_flag: u8,
    /// its depth is at most two above the vertices afloat
    pub nodes_above_vertices: usize,
    /// its node p has p required edges, less so many
    pub required_short: usize,
    /// its nodes that do not wait are zero
    pub zeros_past_depth: bool,
    /// C-19: "a node's required legs in one row .. and its struck legs in another": which comes first is ours
    pub required_row: usize,
    /// leg k is bit (k − 1) % 64 of word (k − 1) / 64
    pub first_bit: usize,
    /// C-19: "with no leg in both"
    pub rows_apart: bool,
    /// C-19: "and every bit past leg m clear"
    pub clear_past_m: bool,
    /// C-19: "m less the set bits of both rows"
    pub both_rows_counted: bool,
    /// C-16: the multipliers that its nodes carry fit
    pub carried_fit: bool,
    /// and are zero past n
    pub carried_zero_past_n: bool,
    /// C-20: a node carries the multipliers of the vertices afloat alone, in their order, and zero past these
    pub carried_of_afloat: bool,
    pub carried_zero_past_afloat: bool,
    /// C-20: in every node the edges that touch a vertex ashore are excluded
    pub touched_excluded: bool,
    /// C-20: a record's list is zero past n, and such as an opening accepts
    pub ashore_zero_past_n: bool,
    pub ashore_checked: bool,
    /// C-20: above these alone
    pub depth_of_afloat: bool,

    /// C-18: "names 1 to 8"
    pub max_name: usize,
    /// C-18: "save with no hunt open is still 20, tested before 33"
    pub open_before_name: bool,
    /// C-18: "Saving replaces an earlier state"
    pub save_replaces: bool,
    /// C-18: "the latest accepted save under that name"
    pub back_of_own_name: bool,
    /// C-18: "back needs no open hunt", and replaces one that is open
    pub back_replaces: bool,
    /// C-18: what is saved stays where it is when it is brought back
    pub back_keeps_place: bool,
    /// C-18: states are saved "beside the hunt": closing it leaves them
    pub close_keeps_places: bool,
    /// C-18: "24 covers the lent saved states too": every one of them
    pub every_place_checked: bool,

    /// C-19: "answers on every call equal the former ones": what the stored ones have more, or other, than was answered
    pub stored_nodes: u64,
    pub stored_value: i64,
    pub stored_number: u32,
    pub stored_byte: u8,
}

impl Law {
    pub const AS_WRITTEN: Law = Law {
        max_vertices: 20,
        max_cost: 100_000_000,
        max_mark: 2,
        ends_differ: true,
        pairs_differ: true,
        past_m_ignored: true,
        zeros_past_m: true,
        max_records: 1_000,
        zero_bytes_before_length: true,
        next_judged_last: true,
        later_pair_named: true,
        cost_before_pair: true,
        last_next_zero: true,
        value_before_length: true,
        form_wants_head: true,
        form_wants_order: true,
        max_multiplier: 1_000_000,
        first_multiplier_zero: true,
        multipliers_off: 2,
        lower_numbered_first: true,
        required_kept: true,
        max_ceiling: 5_000_000_000,
        ceiling_within: true,
        required_stay: true,
        no_replacement: None,
        first_leg: 1,
        max_new_mark: 2,
        preview_free_last: true,
        preview_marks: true,
        min_denominator: 1,
        max_denominator: 1_000,
        multipliers_in_units: true,
        step_in_units: true,
        range_counts_units: true,
        bound_scaled: true,
        ceiling_scaled: true,
        parts_compared: true,
        upper_scaled: true,
        costs_in_minutes: true,
        upper_in_minutes: true,
        preview_scaled: true,
        denominator_before: 0,
        denominator_before_leg: true,
        denominator_checked: true,
        lifts_where_asked: true,
        lifts_unasked: false,
        every_pass_lifts: true,
        complete_policy: true,
        first_limit: true,
        second_limit: true,
        second_limit_left_out: true,
        rises_from_degree: 2,
        falls_to_degree: 2,
        support_stays: true,
        second_end_moves: true,
        own_dues: true,
        lowest_support: true,
        lowest_replacement: true,
        required_no_support: true,
        unlimited_goes_on: true,
        lifts_held: true,
        lifted_at_upper_stays: true,
        lifted_dead_rules: true,
        lifted_dead_closes: false,
        dead_by_side: true,
        own_leg_alone: true,
        lifted_together: true,
        dues_go_back: true,
        lifting_bits: u64::MAX,
        lifting_kept_as_bit: true,
        max_lifting: 1,
        max_ashore: 1,
        first_afloat: true,
        least_afloat: 3,
        ashore_length: true,
        ashore_before: 0,
        ashore_before_leg: true,
        dues_ashore_judged: true,
        touched_struck: true,
        touched_required_struck: true,
        touched_ruled_struck: true,
        touched_in_no_tree: true,
        free_by_chart: true,
        due_ashore_zero: true,
        due_ashore_stays: true,
        legs_of_afloat: true,
        round_of_afloat: true,
        agree_by_list: true,
        budget_of_untouched: true,
        saved_with_list: true,
        added_with_list: true,
        compared_with_list: true,
        lifted_with_list: true,
        parts_left: 0,
        looked_beyond: 0,
        required_first: true,
        ruled_stays_below: true,
        unless_dead: true,
        ceiling_bytes: 8,
        ceiling_bytes_read: 8,
        max_window: 32,
        times_more: 0,
        window_is_asked: true,
        begins_empty: true,
        chart_is_no_time: true,
        first_entry: 1,
        window_before_entries: true,
        max_student: 65_535,
        max_spread: 1_000,
        in_sailing_order: true,
        each_buoy_once: true,
        order_before_numbers: true,
        divided_first: true,
        delays_beside_pairs: 1,
        step_first: true,
        max_pairs: 16,
        budget_each: true,
        max_sweeps: 15,
        max_step: 10_000,
        below_tour: 0,
        upper_lowered: true,
        equal_bound_stays: true,
        equal_replaces: true,
        only_the_first: true,
        lacking_first: true,
        highest_decides: true,
        multipliers_inherited: true,
        last_pass_gains: false,
        multipliers_apart: true,
        multipliers_held: true,
        required_on_top: true,
        marks_apart: true,
        record_before_length: true,
        turn_skips: 1,
        after_the_last: true,
        last_kept: true,
        finished_passed_over: true,
        nodes_more: 0,
        idle_keeps_last: true,
        zero_refused_idle: true,
        smallest_free: true,
        finished_are_held: true,
        full_before_opening: true,
        first_place: 1,
        places_checked: 8,
        max_last: 8,
        max_flag: 1,
        nodes_above_vertices: 2,
        required_short: 0,
        zeros_past_depth: true,
        required_row: 0,
        first_bit: 0,
        rows_apart: true,
        clear_past_m: true,
        both_rows_counted: true,
        carried_fit: true,
        carried_zero_past_n: true,
        carried_of_afloat: true,
        carried_zero_past_afloat: true,
        touched_excluded: true,
        ashore_zero_past_n: true,
        ashore_checked: true,
        depth_of_afloat: true,
        max_name: 8,
        open_before_name: true,
        save_replaces: true,
        back_of_own_name: true,
        back_replaces: true,
        back_keeps_place: true,
        close_keeps_places: true,
        every_place_checked: true,
        stored_nodes: 0,
        stored_value: 0,
        stored_number: 0,
        stored_byte: 0,
    };
}
