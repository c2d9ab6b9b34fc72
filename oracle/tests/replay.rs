//! The committed list is the one that the generator makes.

#[path = "../examples/replay_list/calls.rs"]
mod calls;
#[path = "../examples/replay_list/list.rs"]
mod list;
#[path = "../examples/replay_list/rng.rs"]
mod rng;

#[test]
fn list_is_as_made() {
    let committed = std::fs::read_to_string(list::PATH).expect("the list stands in the repository");
    let made = list::made();
    for (i, (old, new)) in committed.lines().zip(made.lines()).enumerate() {
        assert_eq!(old, new, "line {} is not what the generator makes", i + 1);
    }
    assert!(
        committed == made,
        "the list is longer or shorter than the one that is made"
    );
}
