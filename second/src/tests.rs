//! The document's cases 1 to 13 with the numbers it gives, those of requests
//! 1/14 and 2/14, and all of them by the plain engine of request 3/14.

use crate::cases::*;
use crate::engine::Engine;
use crate::fields::{before, less_than, n};
use crate::job::read;
use crate::run::Run;
use crate::{count, limits, meaning, witnesses};

fn listed(job: Vec<u8>) -> String {
    answer(&Run::of_lister(job))
}

/// What the plain engine lists.
fn searched(job: Vec<u8>) -> String {
    answer(&Run::of_lister(job).by(Engine::Plain))
}

fn answer(run: &Run) -> String {
    run.answer().0
}

fn plain_count(job: &[u8]) -> u128 {
    count::plain_count(&read(job).expect("the case is accepted"))
}

#[test]
fn case_1_empty_job() {
    assert_eq!(listed(case_1()), "refused 11 0\n");
}

#[test]
fn case_2_events() {
    assert_eq!(case_2().len(), 91);
    assert_eq!(listed(case_2()), "vars 0 2\n5 1 2 0 1\ncomplete 1 10\n");
}

#[test]
fn case_3_group_in_either_direction() {
    let expected = "vars 1 2\n3 7 31 0 0 0\n8 7 32 1 0 1\ncomplete 2 8\n";
    assert_eq!(listed(case_3()), expected);
    assert_eq!(plain_count(&case_3()), 8);
}

#[test]
fn case_4_one_entry_for_each_instance() {
    let expected = "vars 0\n2 1 0 0\n4 2 1 0\ncomplete 2 4\n";
    assert_eq!(listed(case_4()), expected);
    assert_eq!(plain_count(&case_4()), 8);
}

#[test]
fn case_5_constraint() {
    assert_eq!(listed(case_5()), "vars\n2 0 0\ncomplete 1 2\n");
}

#[test]
fn case_6_no_body() {
    let run = with_allowance(case_6(), 0);
    assert_eq!(answer(&run), "vars\n0\ncomplete 1 0\n");
}

#[test]
fn case_7_repeated_variable() {
    assert_eq!(listed(case_7()), "vars 0\n2 3 1\ncomplete 1 2\n");
}

#[test]
fn case_8_allowance_used_up() {
    let stopped = "vars 1 2\n3 7 31 0 0 0\nstopped 1 7\n";
    assert_eq!(answer(&with_allowance(case_3(), 7)), stopped);
    assert_eq!(answer(&with_allowance(case_3(), 8)), listed(case_3()));
}

#[test]
fn case_9_too_few_cells() {
    assert_eq!(answer(&case_9()), "vars 0\n2 1 0 0\nfull 1 4\n");
}

#[test]
fn case_10_no_rows() {
    let run = with_allowance(case_10(), 0);
    assert_eq!(answer(&run), "vars 0\ncomplete 0 0\n");
}

#[test]
fn case_11_late_join() {
    let expected = "vars 0 1\n6 2 5 1 0 0\n8 2 6 1 1 0\ncomplete 2 8\n";
    assert_eq!(listed(case_11()), expected);
    assert_eq!(plain_count(&case_11()), 10);
}

#[test]
fn case_12_negated_before_bound() {
    assert_eq!(listed(case_12()), "refused 9 10\n");
}

#[test]
fn case_13_inside_every_limit() {
    for job in limits::inside() {
        assert!(read(&job).is_ok());
    }
}

#[test]
fn case_13_one_over_every_limit() {
    let refusals = [
        (5, 16 * 5),
        (5, 5 + 1_024 * 8),
        (5, 5 + 4 * 9),
        (5, 5 + 8 * 10),
        (5, 5 + 10 + 7 * 13),
        (8, 5),
        (8, 0),
    ];
    assert_refused(limits::outside(), &refusals);
}

#[test]
fn case_13_around_the_longest_length() {
    assert_refused(limits::lengths(), &[(3, 5), (3, 5), (1, 0)]);
}

#[test]
fn request_1_across_the_roll_over() {
    let right_way = "vars 0 2\n5 1 2 0 1\ncomplete 1 10\n";
    assert_eq!(listed(roll_over(before)), right_way);
    let wrong_way = "vars 0 2\n8 2 1 1 0\ncomplete 1 10\n";
    assert_eq!(listed(roll_over(less_than)), wrong_way);
    assert_eq!(plain_count(&roll_over(before)), 10);
    assert_eq!(plain_count(&roll_over(less_than)), 10);
}

#[test]
fn request_1_distances() {
    let pairs = [
        (0, 2_147_483_647, true),
        (4_294_967_295, 2_147_483_646, true),
        (2_147_483_647, 0, false),
        (0, 2_147_483_648, false),
        (2_147_483_648, 0, false),
        (4_294_967_295, 4_294_967_295, false),
        (4_294_967_295, 0, true),
        (0, 4_294_967_295, false),
    ];
    for (left, right, holds) in pairs {
        let entries = if holds { "1\ncomplete 1" } else { "complete 0" };
        let job = before(n(left), n(right));
        assert_eq!(plain_count(&job), 1);
        assert_eq!(listed(job.clone()), format!("vars\n{entries} 1\n"));
        assert_eq!(searched(job), format!("vars\n{entries} 1\n"));
    }
}

#[test]
fn request_1_tag_7_is_refused() {
    let mut job = before(n(0), n(1));
    job[0] = 7;
    assert_eq!(listed(job), "refused 3 0\n");
}

#[test]
fn request_2_unsolved_rows_kill_nothing() {
    let both = "vars 0\n2 1 0\n4 2 1\ncomplete 2 4\n";
    assert_eq!(listed(stops(false, true)), both);
    assert_eq!(listed(stops(true, true)), "vars 0\n4 2 1\ncomplete 1 4\n");
    assert_eq!(listed(stops(false, false)), both);
    assert_eq!(listed(stops(true, false)), "vars\n4 1\ncomplete 1 4\n");
    for solved in [false, true] {
        for headed in [false, true] {
            assert_eq!(plain_count(&stops(solved, headed)), 4);
        }
    }
}

#[test]
fn plain_counts_that_the_document_does_not_give() {
    let jobs = [
        (case_2(), 10),
        (case_5(), 8),
        (case_6(), 0),
        (case_7(), 2),
        (case_10(), 0),
    ];
    for (job, count) in jobs {
        assert_eq!(plain_count(&job), count);
    }
}

#[test]
fn witnesses_of_wrong_walks() {
    let jobs = [
        (witnesses::mark_on_entering(), 2, 17, 22),
        (witnesses::nothing_fits(), 0, 3, 6),
        (witnesses::clear_mark(), 0, 5, 10),
        (witnesses::set_mark(), 4, 6, 6),
        (witnesses::own_variables(), 1, 14, 14),
        (witnesses::forward_group(), 1, 14, 14),
    ];
    for (job, entries, tests, count) in jobs {
        let ending = |tests| format!("complete {entries} {tests}\n");
        assert_eq!(plain_count(&job), count);
        assert!(listed(job.clone()).ends_with(&ending(tests)));
        assert!(searched(job).ends_with(&ending(count)));
    }
}

#[test]
fn plain_cases() {
    let cases = [
        (case_1(), "refused 11 0\n"),
        (case_2(), "vars 0 2\n5 1 2 0 1\ncomplete 1 10\n"),
        (
            case_3(),
            "vars 1 2\n3 7 31 0 0 0\n8 7 32 1 0 1\ncomplete 2 8\n",
        ),
        (case_4(), "vars 0\n2 1 0 0\n6 2 1 0\ncomplete 2 8\n"),
        (case_5(), "vars\n2 0 0\ncomplete 1 8\n"),
        (case_7(), "vars 0\n2 3 1\ncomplete 1 2\n"),
        (
            case_11(),
            "vars 0 1\n8 2 5 1 0 0\n10 2 6 1 1 0\ncomplete 2 10\n",
        ),
        (case_12(), "refused 9 10\n"),
        (roll_over(before), "vars 0 2\n5 1 2 0 1\ncomplete 1 10\n"),
        (roll_over(less_than), "vars 0 2\n8 2 1 1 0\ncomplete 1 10\n"),
        (stops(false, true), "vars 0\n2 1 0\n4 2 1\ncomplete 2 4\n"),
        (stops(true, true), "vars 0\n4 2 1\ncomplete 1 4\n"),
        (stops(false, false), "vars 0\n2 1 0\n4 2 1\ncomplete 2 4\n"),
        (stops(true, false), "vars\n4 1\ncomplete 1 4\n"),
    ];
    for (job, expected) in cases {
        assert_eq!(searched(job), expected);
    }
}

#[test]
fn plain_cases_6_and_10_need_no_allowance() {
    let no_body = with_allowance(case_6(), 0).by(Engine::Plain);
    assert_eq!(answer(&no_body), "vars\n0\ncomplete 1 0\n");
    let no_rows = with_allowance(case_10(), 0).by(Engine::Plain);
    assert_eq!(answer(&no_rows), "vars 0\ncomplete 0 0\n");
}

/// With one test less than it takes the plain engine gives these lines, and
/// with as many as it takes the whole list.
fn assert_last_test_is_due(job: Vec<u8>, tests: u32, stopped: &str) {
    let run = |allowance| with_allowance(job.clone(), allowance).by(Engine::Plain);
    assert_eq!(answer(&run(tests - 1)), stopped);
    assert_eq!(answer(&run(tests)), searched(job.clone()));
}

#[test]
fn plain_case_8_allowance_used_up() {
    let stopped = "vars 1 2\n3 7 31 0 0 0\nstopped 1 7\n";
    assert_last_test_is_due(case_3(), 8, stopped);
}

#[test]
fn plain_case_2_the_last_test_is_due_though_it_fails() {
    let stopped = "vars 0 2\n5 1 2 0 1\nstopped 1 9\n";
    assert_last_test_is_due(case_2(), 10, stopped);
}

#[test]
fn plain_case_4_with_each_allowance() {
    let entries = ["", "2 1 0 0\n", "2 1 0 0\n6 2 1 0\n"];
    for (allowance, found) in [0, 0, 1, 1, 1, 1, 2, 2].into_iter().enumerate() {
        let run = with_allowance(case_4(), allowance as u32).by(Engine::Plain);
        let stopped = format!("vars 0\n{}stopped {found} {allowance}\n", entries[found]);
        assert_eq!(answer(&run), stopped);
    }
    for allowance in [8, 9, u32::MAX] {
        let run = with_allowance(case_4(), allowance).by(Engine::Plain);
        assert_eq!(answer(&run), searched(case_4()));
    }
}

#[test]
fn plain_case_9_too_few_cells() {
    let run = |allowance, cells| Run {
        allowance,
        cells,
        ..case_9().by(Engine::Plain)
    };
    assert_eq!(answer(&run(8, 3)), "vars 0\nfull 0 2\n");
    assert_eq!(answer(&run(8, 7)), "vars 0\n2 1 0 0\nfull 1 6\n");
    assert_eq!(answer(&run(6, 7)), "vars 0\n2 1 0 0\nfull 1 6\n");
    assert_eq!(answer(&run(5, 7)), "vars 0\n2 1 0 0\nstopped 1 5\n");
    assert_eq!(answer(&run(8, 8)), searched(case_4()));
}

#[test]
fn plain_long_searches() {
    let [last_row_fits, every_row_fits] = limits::long_searches();
    let expected = "vars\n8192 1023 1023 1023 1023 1023 1023 1023 1023\ncomplete 1 8192\n";
    assert_eq!(searched(last_row_fits), expected);
    let expected = "vars\n8 0 0 0 0 0 0 0 0\nstopped 1 1000000\n";
    assert_eq!(searched(every_row_fits), expected);
}

fn assert_refused(jobs: Vec<Vec<u8>>, refusals: &[(u32, usize)]) {
    assert_eq!(jobs.len(), refusals.len());
    for (job, (number, place)) in jobs.into_iter().zip(refusals) {
        assert_eq!(listed(job.clone()), format!("refused {number} {place}\n"));
        assert_eq!(searched(job), format!("refused {number} {place}\n"));
    }
}

#[test]
fn accepted_cases_have_the_meaning_s_list() {
    let jobs = [
        case_2(),
        case_3(),
        case_4(),
        case_5(),
        case_6(),
        case_7(),
        case_10(),
        case_11(),
        roll_over(before),
        roll_over(less_than),
        stops(false, true),
        stops(true, true),
        stops(false, false),
        stops(true, false),
    ];
    for bytes in jobs {
        let job = read(&bytes).expect("the case is accepted");
        let list = meaning::list(&job).expect("the case is small");
        let lines: Vec<String> = list.iter().map(cells).collect();
        assert_eq!(without_tests(&listed(bytes.clone())), lines);
        assert_eq!(without_tests(&searched(bytes)), lines);
    }
}

/// The entries of an answer, each without its first cell.
fn without_tests(answer: &str) -> Vec<String> {
    let lines: Vec<&str> = answer.lines().collect();
    let later_cells = |entry: &&str| entry.split(' ').skip(1).collect::<Vec<_>>().join(" ");
    lines[1..lines.len() - 1].iter().map(later_cells).collect()
}

fn cells(instance: &meaning::Instance) -> String {
    let values = instance.values.iter().map(u32::to_string);
    let support = instance.first_support.iter().map(usize::to_string);
    values.chain(support).collect::<Vec<_>>().join(" ")
}
