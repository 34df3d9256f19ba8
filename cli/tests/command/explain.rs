//! `nemod explain`.

use crate::run::{fails, says, Folder};
use parchgable::Refusal;

#[test]
fn one() {
    let expected = "refused 24: span outside the stored bytes
Meaning: A site of a fixup record, or of the chain that starts there, does not lie in the segment's stored bytes.
What to do: The record or the chain is damaged. Upload the file again, or link it again.
";
    let folder = Folder::new();
    assert_eq!(folder.nemod(&["explain", "24"]), says(0, expected));
    assert_eq!(folder.nemod(&["explain", "0x18"]), says(0, expected));
}

#[test]
fn each() {
    let folder = Folder::new();
    for refusal in Refusal::ALL {
        let number = refusal.number().to_string();
        let (text, meaning, advice) = (refusal.text(), refusal.meaning(), refusal.advice());
        let expected =
            format!("refused {number}: {text}\nMeaning: {meaning}\nWhat to do: {advice}\n");
        assert_eq!(folder.nemod(&["explain", &number]), says(0, &expected));
    }
}

#[test]
fn all() {
    let answer = Folder::new().nemod(&["explain"]);
    let lines: Vec<&str> = answer.output.lines().collect();
    assert_eq!(lines.len(), 26);
    assert_eq!(lines[0], " 1  the file has under 64 bytes");
    assert_eq!(lines[25], "26  over 65,536 sites");
    assert_eq!(answer.status, Some(0));
}

/// Everything that document 01 gives a number for is among its causes.
#[test]
fn causes() {
    let table: [(u32, &[&str]); 5] = [
        (
            7,
            &[
                "segment table",
                "module references",
                "entry table",
                "nonresident names",
                "cut off",
                "stripped",
            ],
        ),
        (
            9,
            &[
                "stored bytes",
                "count of its fixup records",
                "no stored bytes",
                "shift of 0",
                "cut off",
            ],
        ),
        (
            10,
            &["0008h", "on purpose", "not read yet", "without packing"],
        ),
        (
            13,
            &[
                "segment 0",
                "above the count",
                "CDh 3Fh",
                "254",
                "constants",
            ],
        ),
        (
            16,
            &[
                "resident names",
                "nonresident names",
                "byte count",
                "module's name",
                "empty",
                "cut off",
            ],
        ),
    ];
    for (number, causes) in table {
        let refusal = Refusal::try_from(number).expect("a refusal");
        let said = format!("{} {}", refusal.meaning(), refusal.advice());
        for cause in causes {
            assert!(said.contains(cause), "{number}: {cause}");
        }
    }
    for refusal in Refusal::ALL {
        assert!(!refusal.advice().contains("faulty"), "{refusal}");
    }
}

#[test]
fn no_refusal() {
    let folder = Folder::new();
    for number in ["0", "27", "4294967295"] {
        let message = format!("there is no refusal {number}; they are 1 to 26");
        let expected = format!("nemod: explain: {message}\nTry 'nemod explain --help'.\n");
        assert_eq!(folder.nemod(&["explain", number]), fails(&expected));
    }
}
