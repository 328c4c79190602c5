//! The cases worked by hand, and the examples that are run.

mod common;

use common::{cube_of, expression, over, single};
use second::cokernel::cokernels;
use second::cubes::{Expression, Literal, Variable};
use second::divide::divide;
use second::extract::{divisors, run, Divisor, Stop};
use second::factor::text;
use second::image;
use second::network::Network;
use second::report::report;

const FOUR: &str = "ac+ad+bc+bd";
const LECTURE: &str = "abd+a'b'd+a'cd";

fn sum(one: &str, other: &str) -> Divisor {
    let letters = "abcdefgh";
    Divisor::Sum(cube_of(one, letters), cube_of(other, letters))
}

fn weight_of(network: &Network, divisor: &Divisor) -> Option<i64> {
    let all = divisors(network);
    all.into_iter().find(|step| step.divisor == *divisor).map(|step| step.weight)
}

#[test]
fn case_1_cokernels_of_four_products() {
    let found = cokernels(&expression(FOUR), 100).unwrap();
    assert_eq!(found, expression("1+a+b+c+d"));
    let order: Vec<String> = found.iter().map(|c| c.text()).collect();
    assert_eq!(order, ["1", "x0", "x1", "x2", "x3"]);
}

#[test]
fn case_2_division() {
    assert_eq!(divide(&expression(FOUR), &expression("a+b")), (expression("c+d"), Expression::new()));
}

#[test]
fn case_3_first_step() {
    let mut network = single(4, expression(FOUR));
    let (stop, steps) = run(&mut network, 64);
    assert_eq!((stop, steps.len()), (Stop::Done, 1));
    assert_eq!((&steps[0].divisor, steps[0].weight, steps[0].uses), (&sum("a", "b"), 2, 2));
    assert_eq!(network.literal_count(), 6);
}

#[test]
fn case_4_text() {
    assert_eq!(text(&expression(FOUR)), "x0*(x2+x3)+x1*(x2+x3)");
}

#[test]
fn case_5_image() {
    let mut network = single(4, expression(FOUR));
    run(&mut network, 1);
    let bytes = image::write(&network);
    let worked = [0x11, 0x80, 0x10, 0x04, 0x04, 0x00, 0x10, 0x40, 0x08, 0x10, 0x41, 0x00, 0x83, 0x08];
    assert_eq!(bytes, worked);
    assert_eq!(image::read(&bytes), Ok(network));
}

#[test]
fn case_6_weights() {
    let network = single(4, expression(LECTURE));
    assert_eq!(weight_of(&network, &sum("b'", "c")), Some(1));
    assert_eq!(weight_of(&network, &sum("ab", "a'b'")), Some(0));
}

#[test]
fn case_7_cokernels_in_order() {
    let found = cokernels(&expression(LECTURE), 100).unwrap();
    let order: Vec<String> = found.iter().map(|c| c.text()).collect();
    assert_eq!(order, ["x0'*x3", "x3"]);
}

#[test]
fn case_8_ends_at_eight() {
    let mut network = single(4, expression(LECTURE));
    assert_eq!(run(&mut network, 64).0, Stop::Done);
    assert_eq!(network.literal_count(), 8);
}

#[test]
fn case_9_a_tie_of_two_sums() {
    let mut network = single(6, over("abcegx", "axe+ag+bcxe+bcg"));
    let letters = |one: &str, other: &str| Divisor::Sum(cube_of(one, "abcegx"), cube_of(other, "abcegx"));
    assert_eq!(weight_of(&network, &letters("a", "bc")), Some(4));
    assert_eq!(weight_of(&network, &letters("ex", "g")), Some(4));
    let (stop, steps) = run(&mut network, 64);
    assert_eq!((stop, &steps[0].divisor), (Stop::Done, &letters("a", "bc")));
    assert_eq!(network.literal_count(), 8);
}

#[test]
fn case_10_one_cube_has_no_cokernel() {
    assert_eq!(cokernels(&expression("abc"), 0), Some(Expression::new()));
    assert_eq!(cokernels(&Expression::new(), 0), Some(Expression::new()));
}

#[test]
fn case_11_constants() {
    assert_eq!(text(&expression("1")), "1");
    assert_eq!(text(&Expression::new()), "0");
}

#[test]
fn case_12_a_variable_both_ways_is_a_sum_like_any_other() {
    let network = single(3, expression("abc+a'bc"));
    assert_eq!(weight_of(&network, &sum("a", "a'")), Some(1));
}

#[test]
fn the_report_whole() {
    let table = b".i 4\n.o 1\n1-1- 1\n1--1 1\n-11- 1\n-1-1 1\n.e\n";
    assert_eq!(report(table), "start 8\nx4 = x0 + x1 weight 2 now 6\nend 6 done\n");
}

#[test]
fn reports_of_pairs_parts_and_refusals() {
    let pair = b".i 5\n.o 3\n111-- 100\n11-1- 010\n11--1 001\n.e";
    assert_eq!(report(pair), "start 9\nx5 = x0*x1 weight 1 now 8\nend 8 done\n");
    let parts = b".i 6\n.o 1\n11--1- 1\n--001- 1\n11---1 1\n--00-1 1\n.e";
    assert_eq!(report(parts), "start 12\nx6 = x0*x1 + x2'*x3' weight 4 now 8\nend 8 done\n");
    assert_eq!(report(b".i 4\n.o 1\n1-1 1\n.e"), "refused 2 at line 3 column 4\n");
    assert_eq!(report(b""), "refused 5 at line 0 column 0\n");
    assert_eq!(report(&[b'#'; 65_537]), "refused 1 at line 0 column 0\n");
}

#[test]
fn parentheses_are_always_written() {
    assert_eq!(text(&expression("abc+abd")), "x0*(x1*(x2+x3))");
    assert_eq!(text(&expression("a'b+a'c+d")), "x0'*(x1+x2)+x3");
}

#[test]
fn division_by_the_constant() {
    let f = expression(LECTURE);
    assert_eq!(divide(&f, &expression("1")), (f, Expression::new()));
}

#[test]
fn a_part_of_three_is_no_divisor() {
    let network = single(8, expression("abcd+efgd"));
    assert!(divisors(&network).iter().all(|step| matches!(step.divisor, Divisor::Pair(..))));
}

#[test]
fn one_base_in_two_nodes_is_two_uses() {
    let both = Network { outputs: vec![expression("ac+bc"); 2], ..single(3, expression("")) };
    let step = divisors(&both).into_iter().find(|step| step.divisor == sum("a", "b")).unwrap();
    assert_eq!((step.uses, step.weight), (2, 2));
}

#[test]
fn pairs_come_before_sums_on_a_tie() {
    let outputs = ["abc", "abd", "abe", "fgh+fgi"].map(expression).to_vec();
    let mut network = Network { inputs: 9, outputs, divisors: Vec::new() };
    let (_, steps) = run(&mut network, 2);
    assert_eq!((steps[0].weight, steps[1].weight), (1, 1));
    assert_eq!(steps[0].divisor, Divisor::Pair(Literal(0), Literal(2)));
    assert!(matches!(steps[1].divisor, Divisor::Sum(..)));
}

#[test]
fn the_image_lists_the_smallest_number_whose_divisors_are_listed() {
    let read = |v: u8| Expression::from([second::cubes::Cube::of([Variable(v).plain()])]);
    let divisors = vec![read(4), read(0), read(3), read(1)];
    let network = Network { inputs: 2, outputs: vec![read(2)], divisors };
    assert_eq!(image::listing(&network), [1, 2, 0, 3]);
    let back = image::read(&image::write(&network)).unwrap();
    assert_eq!(back.divisors, [read(0), read(2), read(3), read(1)]);
    assert_eq!(back.outputs, [read(4)]);
}

#[test]
fn the_map_and_what_is_shown() {
    let text = b".i 4\n.o 1\n1-1- 1\n1--1 1\n-11- 1\n-1-1 1\n.e\n";
    let mut network = second::table::read(text).expect("a table");
    second::extract::run(&mut network, second::report::STEPS);
    assert_eq!(second::map::map(&network), "x4 x0+x1 y0\ny0 x4*(x2+x3) x4\n");
    let shown = "inputs 4 outputs 1 divisors 1 literals 6\nx4 = x0+x1 literals 2\ny0 = x4*(x2+x3) literals 4\n";
    assert_eq!(second::map::show(&network), shown);
}
