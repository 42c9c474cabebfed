//! What `offers` prints by hand, and the comparison with a program: that it passes one that prints what the plain version does, and
//! finds each that doesn't.

#[path = "common/programs.rs"]
mod programs;

use checker::offers::compare;
use plain::offers::offers;
use programs::Comparison;

const OPENING: &str = "     1000     168   84        0\n";

fn printed(list: &str) -> String {
    let printed = offers(list.as_bytes());
    assert!(printed.said.is_empty());
    String::from_utf8(printed.out).unwrap()
}

/// The clock goes on with refused frames too; the gate's reading doesn't.
#[test]
fn lines_are_answered_in_turn() {
    let later = [
        "   84        0\n",
        "   84        0\n",
        "   83      600\n",
        "   84       71\n",
        "   84        1\n",
    ];
    let answers = [
        "  0       1344000\n",
        "  0        672000\n",
        "  0             0\n",
        " 60             0\n",
        "  1        671000\n",
        "  0             0\n",
    ];
    let list = [OPENING, &later.concat()].concat();
    assert_eq!(printed(&list), answers.concat());
    let cut = &list[..list.len() - 1];
    let end = [&answers[..5].concat(), "end         6\n"].concat();
    assert_eq!(printed(cut), end);
}

#[test]
fn openings_alone() {
    assert_eq!(printed(""), "");
    assert_eq!(printed(OPENING), "  0       1344000\n");
    assert_eq!(printed(&OPENING[..31]), "end         1\n");
    assert_eq!(printed(&OPENING[1..]), "end         1\n");
    assert_eq!(printed(&format!(" {OPENING}")), "end         1\n");
    let refused = OPENING.replace("  168", "   83");
    let alone = " 61             0\n";
    assert_eq!(printed(&refused), alone);
    assert_eq!(printed(&[&refused, "x"].concat()), alone);
}

const COMPARISON: Comparison = Comparison {
    command: "offers",
    run: |program, count| Ok(compare(program, 7, count)?.missing()),
};

#[test]
fn the_plain_offers_pass_and_every_kind_occurs() {
    COMPARISON.passes_and_meets_every_kind();
}

#[test]
fn wrong_programs_are_found() {
    COMPARISON.finds_wrong_programs(&[
        "| sed 's/^  1/  0/'",
        "| grep -v end",
        "| head -n -1",
        "| head -c -1",
        "2>&1",
    ]);
}
