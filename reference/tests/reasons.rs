//! Each reason for which a file is refused, as the document says it.

use reference::play::play;

const HEAD: &str = "brake 3\nblur 1\ntrain 500 500 500 2000 100\ntrain 380 380 380 398 80\n";

/// How a text is taken or refused, as it is said of the file `f`.
fn said(text: &str) -> String {
    match play(text, |_| Ok(())) {
        Ok(gaps) => gaps.to_string(),
        Err(failure) => failure.told_of("f").to_string(),
    }
}

/// How the line is refused that comes after the head of the example.
fn refused(line: &str) -> String {
    let said = said(&format!("{HEAD}{line}\n"));
    let reason = said.strip_prefix("f:5: refused 10 at 4: ");
    reason
        .unwrap_or_else(|| panic!("{line}: {said}"))
        .to_owned()
}

const HEADS: [(&str, &str); 32] = [
    ("", "f: refused 1 at 0: a brake is from 1 to 100"),
    (
        "# a comment\n\n \t\r\n",
        "f: refused 1 at 0: a brake is from 1 to 100",
    ),
    (
        "brake 0\nblur 101\n",
        "f: refused 1 at 0: a brake is from 1 to 100",
    ),
    (
        "brake 101\nblur 1\n",
        "f: refused 1 at 0: a brake is from 1 to 100",
    ),
    (
        "brake 18446744073709551616\nblur 1\n",
        "f: refused 1 at 0: a brake is from 1 to 100",
    ),
    (
        "brake 03\nblur 1\n",
        "f: refused 1 at 0: a brake is from 1 to 100",
    ),
    (
        "\u{feff}brake 3\nblur 1\n",
        "f: refused 1 at 0: a brake is from 1 to 100",
    ),
    (
        "brake\u{a0}3\nblur 1\n",
        "f: refused 1 at 0: a brake is from 1 to 100",
    ),
    ("brake 3\n", "f: refused 1 at 1: a blur is from 0 to 100"),
    (
        "brake 3\nblur 101\n",
        "f: refused 1 at 1: a blur is from 0 to 100",
    ),
    (
        "brake 3\nbrake 3\nblur 1\n",
        "f: refused 1 at 1: a blur is from 0 to 100",
    ),
    (
        "brake 3\rblur 1\n",
        "f: refused 1 at 0: a brake is from 1 to 100",
    ),
    (
        "brake 3\nblur 1\ncontrollers 9\n",
        "f: refused 8 at 1: there are at most 8 controllers",
    ),
    (
        "controllers 9\nbrake 3\nblur 1\ntrain 4 4 4 4 5\n",
        "f: refused 8 at 1: there are at most 8 controllers",
    ),
    ("brake 3\nblur 1", "0 gaps"),
    ("blur 1\r\nbrake 3\r", "0 gaps"),
    ("\tblur\t 1 \n  brake  3\t\n", "0 gaps"),
    ("brake 3\nblur 0\ncontrollers 0\n", "0 gaps"),
    ("brake 3\nblur 0\ntrain 4 4 4 4 4\nmark 0", "0 gaps"),
    (
        "brake 3\nblur 0\ntrain 4 4 4 4 5",
        "f: refused 9 at 0: a train's length is at most its front",
    ),
    (
        "brake 3\nblur 0\ntrain 5 4 3 2 5",
        "f: refused 9 at 0: a train's length is at most its front",
    ),
    (
        "brake 3\nblur 0\ntrain 5 4 3 2 4",
        "f: refused 9 at 0: low is at most the front",
    ),
    (
        "brake 3\nblur 0\ntrain 4 4 3 2 4",
        "f: refused 9 at 0: the front is at most high",
    ),
    (
        "brake 3\nblur 0\ntrain 4 4 4 3 4",
        "f: refused 9 at 0: high is at most the end",
    ),
    (
        "brake 3\nblur 0\ntrain 4 4 4 1000000001 4",
        "f: refused 9 at 0: the end is at most 1000000000",
    ),
    (
        "brake 3\nblur 0\ntrain 9 9 9 9 4\ntrain 4 4 4 6 4\n",
        "f: refused 9 at 1: the end is at most 5",
    ),
    (
        "brake 3\nblur 0\ntrain 9 9 9 9 4\ntrain 4 4 4 5 4\n",
        "0 gaps",
    ),
    (
        "brake 3\nblur 0\ntrain 9 9 9 9 4\ntrain 4 4 4 5 4\nmark 0",
        "1 gaps, smallest 1",
    ),
    (
        "brake 3\nblur 0\ncontrollers 3\ncontrollers 3",
        "f:4: refused 10 at 3: controllers comes once, before the first event",
    ),
    (
        "brake 3\nblur 0\ntrain 1 1 1 1",
        "f:3: refused 10 at 2: expected a number below 2^64 without sign or leading zero, \
         found the end of the line",
    ),
    (
        "brake 3\nblur 0\ntrain 1 1 1 1 1 1",
        "f:3: refused 10 at 2: expected the end of the line, found '1'",
    ),
    (
        "brake 3\nblur 0\n\r\r\n",
        "f:3: refused 10 at 2: expected brake, blur, controllers, train, tick, mark, report, \
         hear, tell, grant, take or restart, found a word of 1 bytes",
    ),
];

#[test]
fn heads() {
    for (text, expected) in HEADS {
        assert_eq!(said(text), expected, "{text:?}");
    }
}

#[test]
fn trains_that_are_too_many() {
    let trains = |count| format!("brake 3\nblur 1\n{}", "train 0 0 0 0 0\n".repeat(count));
    assert_eq!(said(&trains(64)), "0 gaps");
    assert_eq!(
        said(&format!("{}mark 63", trains(64))),
        "63 gaps, smallest 0"
    );
    assert_eq!(
        said(&format!("{}controllers 9\n", trains(65))),
        "f: refused 8 at 0: there are at most 64 trains"
    );
    assert_eq!(
        said(&format!("{}grant 0 train 63", trains(64))),
        "f:67: refused 10 at 66: there is no train behind train 63"
    );
}

const NUMBER: &str = "a number below 2^64 without sign or leading zero";

fn expected(line: &str, x: &str, y: &str) {
    assert_eq!(refused(line), format!("expected {x}, found {y}"), "{line}");
}

#[test]
fn words_that_are_no_numbers() {
    for number in [
        "1.5",
        "-1",
        "+1",
        "00",
        "18446744073709551616",
        "one",
        "mark",
    ] {
        expected(&format!("mark {number}"), NUMBER, &format!("'{number}'"));
    }
    expected("mark", NUMBER, "the end of the line");
    expected("mark \u{661}", NUMBER, "a word of 2 bytes");
    expected("mark 0\x0c", NUMBER, "a word of 2 bytes");
    expected("mark 0\r\r", NUMBER, "a word of 2 bytes");
    expected("mark 0 0", "the end of the line", "'0'");
    expected("mark 0 # here", "the end of the line", "'#'");
    expected("mark 0 it's", "the end of the line", "'it's'");
    let forty = "x".repeat(40);
    expected(&format!("mark {forty}"), NUMBER, &format!("'{forty}'"));
    expected(&format!("mark {forty}x"), NUMBER, "a word of 41 bytes");
}

#[test]
fn words_that_are_others() {
    let wish = "a wish from 0 to 10000";
    expected("tick 0 wish 10001 sped", wish, "'10001'");
    expected("tick 0 wish 007 speed 7", wish, "'007'");
    expected("tick 0 wish", wish, "the end of the line");
    expected("tick 0 wish 5 sped 5", "'speed'", "'sped'");
    expected("tick 0 wish 5", "'speed'", "the end of the line");
    expected("tick 0 5", "'wish'", "'5'");
    expected("hear 0 train 0", "'message'", "'train'");
    expected("take 0", "'message'", "'0'");
    expected("tell 0 message 0", "'train'", "'message'");
    expected("grant 0", "'train'", "the end of the line");
    expected("brake 1.5", NUMBER, "'1.5'");
    let first = "brake, blur, controllers, train, tick, mark, report, hear, tell, grant, take or \
                 restart";
    expected("Mark 0", first, "'Mark'");
    expected("\u{feff}mark 0", first, "a word of 7 bytes");
}

#[test]
fn lines_that_come_too_late() {
    for word in ["brake", "blur"] {
        let once = format!("{word} comes once, before the first event");
        assert_eq!(refused(&format!("{word} 3")), once);
    }
    for (line, reason) in [
        (
            "controllers 3",
            "controllers comes once, before the first event",
        ),
        ("train 0 0 0 0 0", "train comes before the first event"),
    ] {
        let expected = format!("f:6: refused 10 at 5: {reason}");
        assert_eq!(said(&format!("{HEAD}mark 0\n{line}\nmark 9")), expected);
    }
}

#[test]
fn events_that_cannot_be() {
    let cannot = |line: &str, reason: &str| assert_eq!(refused(line), reason, "{line}");
    let most = "18446744073709551615";
    cannot("restart 8", "there is no controller 8");
    cannot("hear 8 message 0", "there is no controller 8");
    cannot("tell 8 train 2", "there is no controller 8");
    cannot(
        &format!("grant {most} train 2"),
        &format!("there is no controller {most}"),
    );
    cannot("tell 7 train 2", "there is no train 2");
    cannot("grant 7 train 2", "there is no train 2");
    cannot(
        &format!("grant 7 train {most}"),
        &format!("there is no train {most}"),
    );
    cannot("grant 7 train 1", "there is no train behind train 1");
    cannot("mark 256", "there is no train 256");
    cannot("report 2", "there is no train 2");
    cannot("tick 2 wish 0 speed 1", "there is no train 2");
    cannot("hear 0 message 0", "no message 0 was sent yet");
    cannot(
        &format!("take message {most}"),
        &format!("no message {most} was sent yet"),
    );
    cannot("tick 0 wish 0 speed 1", "the speed can be at most 0");
    cannot("tick 0 wish 5 speed 6", "the speed can be at most 5");
    cannot("tick 1 wish 12 speed 1", "the speed can be at most 0");
    assert_eq!(
        said(&format!("{HEAD}report 0\ntake message 0\n")),
        "f:6: refused 10 at 5: message 0 is a report, and only a grant can be taken"
    );
    assert_eq!(
        said(&format!(
            "{HEAD}tick 1 wish 5 speed 5\n\n# here\ntick 1 wish 7 speed 3\n"
        )),
        "f:8: refused 10 at 7: the speed can be at most 2"
    );
}

/// The example at the head of the document, and what its ticks say.
#[test]
fn a_day() {
    let mut ticks = Vec::new();
    let events =
        "tick 1 wish 5 speed 5\nreport 0\nhear 2 message 0\ngrant 2 train 0\ntake message 1";
    let gaps = play(&format!("{HEAD}{events}"), |ticked| {
        ticks.push(*ticked);
        Ok(())
    });
    assert_eq!(gaps.unwrap().to_string(), "5 gaps, smallest 15");
    assert_eq!(ticks.len(), 1);
    assert_eq!(
        (ticks[0].train, ticks[0].speed, ticks[0].front),
        (1, 5, 385)
    );
}

/// The gap behind a train that moves at once is looked at only after it moved.
#[test]
fn gaps_of_the_first_event() {
    let text = format!("{HEAD}tick 0 wish 7 speed 7\n");
    assert_eq!(said(&text), "1 gaps, smallest 27");
}
