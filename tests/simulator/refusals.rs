// What the tools refuse that are asked about an operation, and in which order,
// worked out by hand.

use crate::asked_cases::{bad_lists, list, numbers, script, OVERTAKEN};
use crate::script_cases::filling;
use crate::two_ways::TwoWays;
use std::fmt::{Debug, Display};

impl<Found: Debug + Display + PartialEq> TwoWays<Found> {
    /// Asked with what is found of the first operation of OVERTAKEN.
    pub fn refusals(&self, found: &str) {
        self.no_such_operation();
        self.order_of_refusals();
        self.lines_of_another_form(found);
        self.first_lines_and_ends(found);
        self.argument_lists(found);
    }

    fn no_such_operation(&self) {
        let most = 4294967295;
        self.expect(OVERTAKEN, &[(0, 1, "31"), (3, 1, "31"), (13, 1, "31"), (most, 1, "31"), (0, 0, "31"), (3, 0, "31")]);
        self.expect(OVERTAKEN, &[(1, 0, "31"), (1, 2, "31"), (1, most, "31"), (2, 0, "31"), (2, 2, "31"), (most, most, "31")]);
        // The board has no such members, so their begins were not answered 0.
        self.expect("members 2, write 0 7, deliver 0, write 3 7, deliver 3", &[(0, 1, "31"), (3, 1, "31")]);
        // Nobody begins, and nobody is there to overtake.
        self.expect("members 2", &[(1, 1, "31")]);
        self.expect("members 1, write 1 7, deliver 1, deliver 1, deliver 1, read 1 1, deliver 1", &[(1, 1, "31"), (1, 2, "31")]);
    }

    /// 17 before 1, 17 before 31, 1 before 31.
    fn order_of_refusals(&self) {
        for members in ["0", "13", "4294967295"] {
            let lines = OVERTAKEN.replace("members 2", &format!("members {}", members));
            self.expect(&lines, &[(1, 1, "1"), (1, 2, "1"), (0, 0, "1"), (14, 1, "1")]);
            assert_eq!(self.ask(&list(&[b"1"]), &script(&lines)), "17\n");
            self.expect(&format!("{}, bid 1", lines), &[(1, 1, "17"), (1, 2, "17")]);
            self.expect(&format!("members {}", members), &[(1, 1, "1")]);
            assert_eq!(self.first_of_one(&[script(&lines), filling(70_000)].concat()), "17\n");
        }
        self.expect(&format!("{}, bid 1", OVERTAKEN), &[(1, 2, "17"), (0, 1, "17"), (3, 1, "17")]);
        assert_eq!(self.ask(&list(&[b"1", b"2", b"3"]), &script(OVERTAKEN)), "17\n");
    }

    /// At every place, also behind the verdict; alone they are what the board answers 17.
    fn lines_of_another_form(&self, found: &str) {
        let good: Vec<&str> = OVERTAKEN.split(", ").collect();
        let bad = [
            "", " ", "members 2", "members 13", "bid 2 7", "deliver 1\r", "\r", "deliver", "deliver 01", "deliver 1 ", " deliver 1",
            "deliver\t1", "write 1", "write 1 4294967296", "read 1 2 3", "crash -1", "Deliver 1", "deliver 1\0",
        ];
        for line in bad {
            for place in 1..=good.len() {
                let mut lines = good.clone();
                lines.insert(place, line);
                self.expect(&lines.join(", "), &[(1, 1, "17")]);
            }
        }
        // A number that is no member is a good form, and so is a slot that is none.
        self.expect(&format!("{}, crash 4294967295, read 1 0, write 0 0", OVERTAKEN), &[(1, 1, found)]);
    }

    fn first_lines_and_ends(&self, found: &str) {
        let of_another_form =
            ["", "\n", "\nmembers 2\n", "members 02\n", "members 2\r\n", "members 2 \n", "members 4294967296", "members", "deliver 1\n"];
        for text in of_another_form {
            assert_eq!(self.first_of_one(text.as_bytes()), "17\n", "{:?}", text);
        }
        for (text, out) in [("members 2", "31\n"), ("members 2\n", "31\n"), ("members 13", "1\n"), ("members 2\n\n", "17\n")] {
            assert_eq!(self.first_of_one(text.as_bytes()), out, "{:?}", text);
        }
        // The last line may lack its line feed; here it is the verdict's.
        let text = script(OVERTAKEN);
        assert_eq!(self.first_of_one(&text[..text.len() - 1]), format!("{}\n", found));
        assert_eq!(self.first_of_one(&text[..text.len() - 2]), "17\n");
    }

    fn argument_lists(&self, found: &str) {
        let text = script(OVERTAKEN);
        for (member, ordinal, out) in [(1, 1, found), (4294967295, 1, "31"), (1, 4294967295, "31")] {
            assert_eq!(self.ask(&numbers(member, ordinal), &text), format!("{}\n", out));
        }
        for bad in bad_lists() {
            assert_eq!(self.ask(&bad, &text), "17\n", "{:?}", bad);
        }
    }
}
