//! The named cases of document 01, fixed; they stand first in every file of vectors.
//! A number is written #1.5 or #2^300. The first word K stands for both kinds of product, opsT for all four sets
//! with a, b, c as keys and ~ as an imaginary part (+0 in a Hamiltonian).
use crate::{show_items, show_number};

const PRODUCTS: [(&str, &str); 37] = [
    ("set_identity_removes", "K set 0X3Y 3 0"),
    ("set_identity_on_free_site", "K set 0X3Y 2 0"),
    ("set_replaces", "K set 0X3Y 3 3"),
    ("set_inserts_in_order", "K set 0X3Y 2 3"),
    ("set_site_30", "K set 0X 30 2"),
    ("get_occupied", "K get 0X3Y 3"),
    ("get_free", "K get 0X3Y 2"),
    ("multiply_factors", "K mul 0X1Y2Z 0Y1Z2Y"),
    ("multiply_with_itself", "K mul 0X1Y30Z 0X1Y30Z"),
    ("multiply_disjoint", "K mul 1Y30X 0X2Y"),
    ("multiply_empty", "K mul I I"),
    ("concatenate_joins_in_order", "K cat 1X4Z 0Y3X30Z"),
    ("concatenate_refuses_first_site_of_second", "K cat 1X3Y5Z 0Z3X5X"),
    ("concatenate_refuses_same_letter", "K cat 0X 0X"),
    ("concatenate_with_empty", "K cat I 0X"),
    ("remap_sorts", "K remap 0X1Y2Z 30,7,8,0,1,2,3,4,5,6,9,10,11,12,13,14,15,16,17,18,19,20,21,22,23,24,25,26,27,28,29"),
    ("remap_swaps", "K remap 0X1Y 1,0,2,3,4,5,6,7,8,9,10,11,12,13,14,15,16,17,18,19,20,21,22,23,24,25,26,27,28,29,30"),
    ("remap_free_targets_not_looked_at", "K remap 0X2Z 5,5,3,3,5,31,255,0,0,0,0,0,0,0,0,0,0,0,0,0,0,0,0,0,0,0,0,0,0,0,200"),
    ("cmp_number_of_sites_first", "K cmp 30Z 0X1X"),
    ("cmp_sites_before_letters_or_pairwise", "K cmp 0Z1X 0X2X"),
    ("cmp_later_site", "K cmp 0X3X 0X2Z"),
    ("cmp_letters", "K cmp 0X1Z 0Y1X"),
    ("cmp_last_letter", "K cmp 0X1Z 0X1Y"),
    ("cmp_equal", "K cmp 0X1Z 0X1Z"),
    ("cmp_empty", "K cmp I 0X"),
    ("conjugate_one_y", "K conj 0Y"),
    ("conjugate_two_y", "K conj 0Y1Y"),
    ("conjugate_empty", "K conj I"),
    ("to_pauli_one_y", "toP 0Y"),
    ("to_pauli_two_y", "toP 0Y1Y"),
    ("to_pauli_others", "toP 0X1Z30X"),
    ("to_decoherence_one_y", "toD 0Y"),
    ("to_decoherence_two_y", "toD 0Y1Y"),
    ("to_decoherence_others", "toD 0X1Z30X"),
    ("product_row_0", "prow 0Y 1 0"),
    ("product_row_1", "prow 0Y 1 1"),
    ("product_row_no_spins", "prow I 0 0"),
];

const SETS: [(&str, &str); 15] = [
    ("terms_in_order_of_first_insertion", "opsT set|b|#1|~;set|a|#2|~;set|c|#3|~"),
    ("set_replaces_in_place", "opsT set|a|#1|~;set|b|#2|~;set|c|#3|~;set|b|#7|~"),
    ("set_zero_removes_later_terms_close_up", "opsT set|a|#1|~;set|b|#2|~;set|c|#3|~;set|a|#0|#0"),
    ("set_zero_removes_in_the_middle", "opsT set|a|#1|~;set|b|#2|~;set|c|#3|~;set|b|#0|#0;get|c|#0|#0"),
    ("removed_term_returns_at_the_end", "opsT set|a|#1|~;set|b|#2|~;set|c|#3|~;set|a|#0|#0;set|a|#5|~"),
    ("set_minus_zero_removes", "opsT set|a|#1|~;set|b|#2|~;set|a|#-0|#0"),
    ("set_zero_on_free_key", "opsT set|a|#1|~;set|b|#0|#0"),
    ("set_answers_what_was_there", "opsT set|a|#1|~;set|a|#2|~;set|a|#0|#0;set|a|#3|~"),
    ("add_sets_old_plus_new", "opsT add|a|#0.1|~;add|a|#0.2|~;get|a|#0|#0"),
    ("add_to_zero_removes", "opsT add|a|#1.5|#0;add|b|#2|~;add|a|#-1.5|#0;get|a|#0|#0"),
    ("add_after_removal_appends", "opsT add|a|#1.5|#0;add|b|#2|~;add|a|#-1.5|#0;add|a|#1|~"),
    ("add_zero_to_free_key", "opsT add|a|#0|#0;get|a|#0|#0"),
    ("get_free_key", "opsT set|a|#1|~;get|b|#0|#0"),
    ("coefficient_at_the_limit", "opsT set|a|#2^300|#0;set|b|#-2^300|#0;add|c|#2^299|#0;add|c|#2^299|#0"),
    ("coefficient_smallest", "opsT set|a|#5e-324|#0;add|b|#-5e-324|#0;add|b|#5e-324|#0"),
];

const OPERATORS: [(&str, &str); 38] = [
    ("empty_product_is_a_key", "opsP set|I|#1|#2;add|I|#1|#0"),
    ("empty_product_is_a_key", "opsH set|I|#1|#0;add|I|#1|#0"),
    ("empty_product_is_a_key", "opsD set|I|#1|#2;add|I|#1|#0"),
    ("zero_real_part_is_kept", "opsP set|0X|#0|#2;add|0X|#0|#-1"),
    ("times_left_terms_outermost", "mulP 0X:#1:#0,1X:#2:#0 2X:#1:#0,3X:#5:#0"),
    ("times_left_terms_outermost", "mulH 0X:#1:#0,1X:#2:#0 2X:#1:#0,3X:#5:#0"),
    ("times_left_terms_outermost", "mulD 0X:#1:#0,1X:#2:#0 2X:#1:#0,3X:#5:#0"),
    ("times_factor_and_parts", "mulP 0X:#1.1:#2.3 0Y:#0.7:#-0.3"),
    ("times_factor_and_parts", "mulH 0X:#1.1:#0 0Y:#0.7:#0"),
    ("times_factor_and_parts", "mulD 0X:#1.1:#2.3 0Y:#0.7:#-0.3"),
    ("times_sums_in_order", "mulP 0X:#1:#0,0Y:#1:#0,0Z:#1:#0 0X:#2^53:#0,0Y:#1:#0,0Z:#-2^53:#0"),
    ("times_sums_in_order", "mulH 0X:#1:#0,0Y:#1:#0,0Z:#1:#0 0X:#1:#0,0Y:#2^53:#0,0Z:#-2^53:#0"),
    ("times_sums_in_order", "mulD 0X:#1:#0,0Y:#-1:#0,0Z:#1:#0 0X:#2^53:#0,0Y:#1:#0,0Z:#-2^53:#0"),
    ("times_cancelled_terms_removed", "mulP 0X:#1:#0,0Y:#1:#0 0X:#1:#0,0Y:#1:#0"),
    ("times_cancelled_terms_removed", "mulH 0X:#1:#0,0Y:#1:#0 0X:#1:#0,0Y:#1:#0"),
    ("times_cancelled_terms_removed", "mulD 0X:#1:#0,0Y:#1:#0 0X:#1:#0,0Y:#1:#0"),
    ("times_removed_term_returns_at_the_end", "mulP 0X:#1:#0,0Y:#-1:#0,0Z:#1:#0 0X:#1:#0,0Y:#1:#0,0Z:#1:#0"),
    ("times_nothing", "mulP - 0X:#1:#0"),
    ("times_rounded_to_zero_not_held", "mulP 0X:#5e-324:#0 1X:#0.25:#0"),
    ("times_number", "scaleP 0X:#1:#2,1Y:#0.1:#0 #3 #4"),
    ("times_zero_keeps_every_term", "scaleP 0X:#1:#2,1Y:#3:#0 #0 #0"),
    ("times_small_number_keeps_zeros", "scaleP 0X:#5e-324:#0,1Y:#3:#0 #0.25 #0"),
    ("held_zero_is_answered_as_old", "zopsP 0X:#1:#2,1Y:#3:#0 #0 #0 set|0X|#5|#0;get|1Y|#0|#0;add|1Y|#1|#0"),
    ("held_zero_removed_by_set_zero", "zopsP 0X:#1:#2,1Y:#3:#0 #0 #0 set|0X|#0|#0"),
    ("held_zero_removed_by_add_zero", "zopsP 0X:#1:#2,1Y:#3:#0 #0 #0 add|0X|#0|#0"),
    ("held_zero_dropped_by_product", "zmulP 0X:#1:#2,1Y:#5e-324:#0 #0.25 #0 0Z:#1:#0"),
    ("held_zero_dropped_by_conjugate", "zconjP 0X:#5e-324:#0,1Y:#3:#4 #0.25 #0"),
    ("held_zero_dropped_by_conversion", "zPtoD 0X:#5e-324:#0,1Y:#3:#4 #0.25 #0"),
    ("conjugate_operator", "conjP I:#0:#1,0Y:#1:#2,0X1Y:#3:#0"),
    ("conjugate_operator", "conjH I:#1:#0,0Y:#2:#0"),
    ("conjugate_operator", "conjD I:#0:#1,0Y:#1:#2,0Y1Y:#3:#4,0X:#5:#6"),
    ("operator_to_decoherence", "PtoD I:#0:#1,0Y:#1:#2,0Y1Y:#3:#4,0X:#5:#6"),
    ("hamiltonian_to_operator", "HtoP 1Z:#3:#0,I:#1:#0,0Y:#-2.5:#0"),
    ("operator_row_zero_sum_kept", "orowP 0X:#1:#0,0Y:#0:#-1 1 0"),
    ("operator_row_zero_sum_kept", "orowH 0Z:#2:#0,1Z:#-2:#0 2 3"),
    ("operator_row_keeps_held_zero", "sorowP 0X:#1:#2,0Z:#3:#0 1 0 #0 #0"),
    ("operator_row_sums_in_term_order", "orowP 0Z:#2^53:#0.1,1Z:#1:#0.2,I:#-2^53:#0.3,0Z1Z:#1:#0.4 2 0"),
    ("operator_row_sums_in_term_order", "orowH 0Z:#2^53:#0,1Z:#1:#0,I:#-2^53:#0,0Z1Z:#1:#0 2 0"),
];

const NOISE: [(&str, &str); 18] = [
    ("noise_empty_side_refused", "opsN set|I/0X|#1|#0;set|0X/I|#1|#0;set|I/I|#1|#0"),
    ("noise_empty_side_refused", "opsN add|I/0X|#1|#0;add|0X/I|#1|#0;add|I/I|#1|#0"),
    ("noise_empty_side_refused_with_zero", "opsN set|0X/0X|#1|#0;set|I/0X|#0|#0;add|0X/I|#0|#0"),
    ("noise_get_empty_side", "opsN set|0X/0X|#1|#0;get|I/0X|#0|#0;get|0X/I|#0|#0;get|I/I|#0|#0"),
    ("noise_sides_are_ordered", "opsN set|0X/0Y|#1|#0;set|0Y/0X|#2|#0;get|0X/0Y|#0|#0"),
    ("full_operators_without_terms_refused", "list N|set|0X/0X|#1|#0;F|-|0X:#1:#0|#1|#0;F|0X:#1:#0|-|#1|#0;F|-|-|#1|#0 1 0"),
    ("full_operators_pass_over_empty_products", "list F|I:#1:#0,0X:#1:#0|0X:#1:#0,I:#2:#0,0Y:#3:#0|#1|#0 1 0"),
    ("full_operators_only_empty_product_adds_nothing", "list F|I:#1:#0|0X:#1:#0|#1|#0;F|0X:#1:#0|I:#1:#0|#1|#0;F|I:#1:#0|I:#1:#0|#1|#0 1 0"),
    ("full_operators_conjugate_right", "list F|0X:#1.1:#2.3|0Y:#3.7:#4.9|#1|#0 1 0"),
    ("full_operators_value_times_last", "list F|0X:#0.1:#0.7|0Y:#0.3:#0.9|#0.7|#0.11 1 0"),
    ("full_operators_left_terms_outermost", "list F|0X:#1:#0,0Y:#2:#0|0Z:#1:#0,0X:#5:#0|#1|#0 1 3"),
    ("full_operators_add_to_held_pairs", "list N|set|0Y/0X|#3|#0;F|0X:#1:#0,0Y:#2:#0|0X:#5:#0|#0.1|#1 1 3"),
    ("full_operators_cancel_and_remove", "list N|set|0X/0X|#-1|#0;N|set|0Y/0X|#3|#0;F|0X:#1:#0|0X:#1:#0|#1|#0 1 0"),
    ("full_operators_with_zero_value", "list N|set|0X/0X|#1|#0;F|0X:#1:#0|0X:#1:#0|#0|#0 1 0"),
    ("remap_noise", "remapN 0X/0Y:#1:#2,1Z/0X1Y:#3:#0 4,2,0,0,0,0,0,0,0,0,0,0,0,0,0,0,0,0,0,0,0,0,0,0,0,0,0,0,0,0,0"),
    ("remap_noise_terms_meet", "remapN 0X/0X:#1:#2,2Z/2Z:#7:#0,1X/1X:#3:#0 5,5,6,0,0,0,0,0,0,0,0,0,0,0,0,0,0,0,0,0,0,0,0,0,0,0,0,0,0,0,0"),
    ("remap_noise_terms_meet_and_cancel", "remapN 0X/0X:#1:#2,2Z/2Z:#7:#0,1X/1X:#-1:#-2 5,5,6,0,0,0,0,0,0,0,0,0,0,0,0,0,0,0,0,0,0,0,0,0,0,0,0,0,0,0,0"),
    ("group_after_refused_calls", "list H|set|0Z|#3|#0;N|set|I/0X|#1|#0;N|add|0X/0X|#2|#0;F|-|-|#1|#0 1 1"),
];

const ROWS: [(&str, &str); 34] = [
    ("commutator_row", "crowH 0Z:#3:#0 1 0"),
    ("commutator_row", "crowH 0Z:#3:#0 1 1"),
    ("commutator_row_right_half_is_transposed", "crowH 0Y:#1:#0 1 0"),
    ("commutator_row_right_half_is_transposed", "crowH 0Y:#1:#0 1 1"),
    ("commutator_row_right_half_is_transposed", "crowP 0Y:#1:#2 1 2"),
    ("commutator_row_coefficient_not_conjugated", "crowP 0X:#1:#2 1 0"),
    ("commutator_row_zero_sum_absent", "crowP 0X:#1:#0,0Y:#0:#-1 1 0"),
    ("commutator_row_sum_begins_anew_after_zero", "crowH 0Z:#2:#0,1Z:#-2:#0,2Z:#0.1:#0 3 7"),
    ("commutator_row_passes_over_held_zero", "scrowP 0X:#1:#2,0Z:#3:#0 1 1 #0 #0"),
    ("commutator_row_sums_left_half_then_right", "crowH 0Z:#-0.5:#0,1Z:#2^53:#0 2 1"),
    ("commutator_row_sums_in_term_order", "crowH 0Z:#2^53:#0,1Z:#1:#0,2Z:#-2^53:#0 3 7"),
    ("noise_row", "nrow 0X/0X:#2:#0 1 0"),
    ("noise_row_conjugate_only_in_anticommutator", "nrow 0X/0Y:#2:#0 1 0"),
    ("noise_row_conjugate_only_in_anticommutator", "nrow 0X/0Y:#2:#0 1 1"),
    ("noise_row_conjugate_only_in_anticommutator", "nrow 0Y/0X:#2:#1 1 2"),
    ("noise_row_conjugate_only_in_anticommutator", "nrow 0Y/0Z:#2:#1 1 3"),
    ("noise_row_zero_sum_kept", "nrow 0Z/0Z:#1:#0 1 0"),
    ("noise_row_halves_rounded_to_zero_kept", "nrow 0X/0X:#5e-324:#0 1 0"),
    ("noise_row_three_contributions_in_order", "nrow 0Z/0Z:#-0.5:#0,1Z/1Z:#2^53:#0 2 1"),
    ("noise_row_three_contributions_in_order", "nrow 0Z/0Z:#-0.5:#0,0Z/1Z:#6755399441055744:#0 2 1"),
    ("noise_row_sums_in_term_order", "nrow 0Z/0Z:#2^53:#0,1Z/1Z:#1:#0,0Z/1Z:#-2^53:#0,1Z/0Z:#3:#0 2 2"),
    ("open_row_has_columns_of_both", "row 0X:#3:#0 0X/0X:#2:#0 1 0"),
    ("open_row_zero_kept_where_both_meet", "row 0Z:#3:#0 0X/0X:#0:#-6 1 1"),
    ("open_row_zero_of_noise_kept", "row 0X:#3:#0 0Z/0Z:#1:#0 1 0"),
    ("open_row_adds_noise_sum_to_commutator_sum", "row 0Z:#2^52:#0 0Z/0Z:#0:#0.75,0X/0X:#0:#0.75 1 1"),
    ("open_row_worked", "row 0Z:#3:#0 0X/0X:#2:#0 1 0"),
    ("open_row_worked", "row 0Z:#3:#0 0X/0X:#2:#0 1 1"),
    ("open_row_worked", "row 0Z:#3:#0 0X/0X:#2:#0 1 2"),
    ("open_row_worked", "row 0Z:#3:#0 0X/0X:#2:#0 1 3"),
    ("row_of_nothing", "row - - 1 2"),
    ("row_of_no_spins", "orowP I:#1:#2 0 0"),
    ("row_of_no_spins", "crowP I:#1:#2 0 0"),
    ("row_of_no_spins", "row I:#1:#0 - 0 0"),
    ("row_last_of_31_spins", "row 0Y30X:#3:#0,30Z:#1:#0 30X/0Y:#2:#1,0Z30Y/30Y:#0:#1 31 4611686018427387903"),
];

/// Numbers written out as their bits.
fn spelled(question: &str) -> String {
    let mut parts = question.split('#');
    let mut out = parts.next().unwrap().to_string();
    for part in parts {
        let (number, rest) = part.split_at(part.find([':', ',', ';', '|', ' ']).unwrap_or(part.len()));
        let x = match number.split_once("2^") {
            Some((sign, power)) => format!("{sign}1").parse::<f64>().unwrap() * 2f64.powi(power.parse().unwrap()),
            None => number.parse().unwrap(),
        };
        out += &show_number(x);
        out += rest;
    }
    out
}
fn both_kinds((name, question): &(&str, &str)) -> Vec<(String, String)> {
    match question.strip_prefix("K ") {
        Some(rest) => ["P", "D"].map(|kind| (name.to_string(), format!("{kind} {rest}"))).into(),
        None => vec![(name.to_string(), question.to_string())],
    }
}
fn all_sets((name, question): &(&str, &str)) -> Vec<(String, String)> {
    let of = |set: &str, keys: [&str; 3], im: &str| {
        let mut text = question.replace("opsT", set).replace('~', im);
        for (letter, key) in ["|a|", "|b|", "|c|"].iter().zip(keys) {
            text = text.replace(letter, &format!("|{key}|"));
        }
        (name.to_string(), text)
    };
    vec![
        of("opsP", ["0X", "1Z", "0X30Y"], "#0.5"),
        of("opsH", ["0X", "1Z", "0X30Y"], "#0"),
        of("opsD", ["0X", "1Z", "0X30Y"], "#0.5"),
        of("opsN", ["0X/0Y", "0Y/0X", "1Z/30X"], "#0.5"),
    ]
}
/// Every case of one site.
fn letters() -> Vec<(String, String)> {
    let mut cases = vec![];
    let mut put = |name: &str, question: String| cases.push((name.to_string(), question));
    for (left, right) in (0..16).map(|i| (i / 4, i % 4)) {
        put("pauli_letters", format!("P1 mul {left} {right}"));
        put("decoherence_letters", format!("D1 mul {left} {right}"));
    }
    for letter in 0..4 {
        put("decoherence_letter_conjugate", format!("D1 conj {letter}"));
        put("decoherence_letter_to_pauli", format!("D1 toP {letter}"));
        put("pauli_letter_to_decoherence", format!("P1 toD {letter}"));
    }
    cases
}
/// 31 sites, 64 terms, 31 spins.
fn limits() -> Vec<(String, String)> {
    let mut cases = vec![];
    let mut put = |name: &str, question: String| cases.push((name.to_string(), question));
    let sites = |from: usize, step: usize, turn: usize| show_items((from..31).step_by(step).map(|s| (s, 1 + ((s + turn) % 3) as u8)));
    let (all, turned) = (sites(0, 1, 0), sites(0, 1, 1));
    let reversed: Vec<String> = (0..31).rev().map(|target| target.to_string()).collect();
    for kind in ["P", "D"] {
        put("multiply_31_sites", format!("{kind} mul {all} {turned}"));
        put("concatenate_31_sites", format!("{kind} cat {} {}", sites(1, 2, 0), sites(0, 2, 0)));
        put("remap_31_sites", format!("{kind} remap {all} {}", reversed.join(",")));
        put("cmp_31_sites", format!("{kind} cmp {all} {turned}"));
        put("conjugate_31_sites", format!("{kind} conj {all}"));
    }
    put("to_pauli_31_sites", format!("toP {all}"));
    put("to_decoherence_31_sites", format!("toD {all}"));

    // the digits of i to base 4 as letters: different products, none empty for i from 1 to 255
    let product = |i: usize| show_items([0, 10, 20, 30].into_iter().zip(0..).map(|(s, k)| (s, (i >> (2 * k) & 3) as u8)).filter(|item| item.1 > 0));
    let pair = |i: usize| format!("{}/{}", product(i), product(255 - 3 * i));
    let terms = |from: usize, to: usize, step: usize, key: &dyn Fn(usize) -> String| {
        (from..=to).step_by(step).map(|i| format!("{}:#{}:#0", key(i), i as f64 / 2.0)).collect::<Vec<_>>().join(",")
    };
    let (few, others) = (terms(1, 8, 1, &product), terms(16, 128, 16, &product));
    for (set, key) in [("opsP", &product as &dyn Fn(usize) -> String), ("opsH", &product), ("opsD", &product), ("opsN", &pair)] {
        let fill: Vec<String> = (1..=64).map(|i| format!("set|{}|#{i}|#0", key(i))).collect();
        put("sixty_four_terms", format!("{set} {};set|{}|#0|#0;add|{}|#1|#0;add|{}|#1|#0", fill.join(";"), key(20), key(65), key(64)));
    }
    for name in ["mulP", "mulH", "mulD"] {
        put("times_makes_64_terms", format!("{name} {few} {others}"));
    }
    put("full_operators_make_64_pairs", format!("list F|{few}|{others}|#1|#0.5 31 0"));
    let (terms, pairs) = (terms(1, 64, 1, &product), terms(1, 64, 1, &pair));
    for (n, bits) in [("orowP", 0x2aaaaaaa), ("orowH", 0x7fffffff), ("crowP", 0x1555555555555555u64), ("crowH", 0x3fffffffffffffff)] {
        put("row_of_64_terms", format!("{n} {terms} 31 {bits}"));
    }
    put("row_of_64_pairs", format!("nrow {pairs} 31 {}", 0x2000000040000001u64));
    put("row_of_64_terms_and_64_pairs", format!("row {terms} {pairs} 31 {}", 0x3123456789abcdefu64));
    cases
}

/// All named cases in their order.
pub fn named() -> Vec<(String, String)> {
    let mut cases = letters();
    cases.extend(PRODUCTS.iter().flat_map(both_kinds));
    cases.extend(SETS.iter().flat_map(all_sets));
    cases.extend([&OPERATORS[..], &NOISE, &ROWS].concat().iter().flat_map(both_kinds));
    cases.extend(limits());
    cases.into_iter().map(|(name, question)| (name, spelled(&question))).collect()
}
