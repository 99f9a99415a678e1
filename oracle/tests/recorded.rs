//! `grow_iterative` of the original over a dual module that plays a recording back: what it does where the ledger refuses (docs/DIFFERENCES.md, 2),
//! and the model's recorded growth beside it.
use oracle::driver::{Driver, Trouble};
use oracle::line::{read, Line};
use oracle::model::groups::Group;
use oracle::model::Model;

/// A driver and a model with a defect in interface 0.
fn both() -> (Driver, Model) {
    let (mut driver, mut model, line) = (Driver::new(1, false), Model::new(1), read("D 0 3").expect("a line"));
    driver.answer(&line).expect("a defect");
    model.answer(&line);
    (driver, model)
}

fn value(driver: &mut Driver) -> i64 {
    driver.answer(&Line::Value(1)).expect("a value")[1]
}

/// The original's answer, and the value of its defect after it; the model's number.
fn played(length: i64, growths: &[Option<(i64, bool)>]) -> (Result<Vec<i64>, Trouble>, i64, i64) {
    let (mut driver, mut model) = both();
    let told = driver.grow_iterative(0, length, growths);
    let group = |growth: &Option<(i64, bool)>| {
        Some(growth.map_or(Group::Conflicts { list: vec![], stops: Default::default() }, |(n, flag)| Group::Growth(n, flag)))
    };
    let groups: Vec<Option<Group>> = growths.iter().map(group).collect();
    let before = model.bench.clone();
    let (number, steps) = model.bench.grow_recorded(0, length, &groups, groups.len());
    if number == 0 {
        assert_eq!(told, Ok(steps));
    } else {
        assert!(model.bench == before && steps.is_empty());
    }
    let value = value(&mut driver);
    (told, value, number)
}

fn growth(length: i64) -> Option<(i64, bool)> {
    Some((length, false))
}

#[test]
fn both_take_the_smaller_of_growth_and_rest() {
    assert_eq!(played(9, &[growth(4), growth(3), growth(5), growth(7)]), (Ok(vec![4, 3, 2]), 9, 0));
    assert_eq!(played(0, &[growth(4)]), (Ok(vec![]), 0, 0));
}

#[test]
fn at_conflicts_the_original_panics_with_what_came_before_grown() {
    let (told, value, number) = played(9, &[growth(4), None, growth(5)]);
    assert!(matches!(&told, Err(Trouble::Panic(why)) if why.contains("iterative grow failed because of conflicts")), "{told:?}");
    assert_eq!((value, number), (4, 27));
}

#[test]
fn at_an_empty_group_the_original_panics_too() {
    let (told, value, number) = played(9, &[growth(4), growth(i64::MAX)]);
    assert!(matches!(&told, Err(Trouble::Panic(why)) if why.contains("is_empty")), "{told:?}");
    assert_eq!((value, number), (4, 21));
}

#[test]
fn the_original_goes_on_after_a_growth_of_0_and_obeys_a_negative_one() {
    assert_eq!(played(9, &[growth(0), growth(9)]), (Ok(vec![0, 9]), 9, 27));
    assert_eq!(played(9, &[growth(-3), growth(12)]), (Ok(vec![-3, 12]), 9, 27));
}
