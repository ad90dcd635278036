//! Tabs at their edges, with expectations written by hand from the scope paper
//! and the requests that are met.

mod common;
use common::Console;

const FRESH: [usize; 9] = [9, 17, 25, 33, 41, 49, 57, 65, 73];

/// A fresh console with these tabs alone.
fn with_tabs(columns: &[usize]) -> Console {
    let mut c = Console::new();
    c.state.tabs = flags(columns);
    c
}

fn flags(columns: &[usize]) -> [bool; 80] {
    std::array::from_fn(|n| columns.contains(&(n + 1)))
}

/// The columns that HT goes to, from column 1 and then from each to the next.
fn round(c: &Console, count: usize) -> Vec<usize> {
    let mut c = c.clone().feed(b"\r");
    let mut columns = Vec::new();
    for _ in 0..count {
        c.more(b"\t");
        columns.push(c.state.of_active().cursor.column);
    }
    columns
}

/// With wrap due in row 5, these tabs, autowrap on.
fn due(columns: &[usize]) -> Console {
    let c = with_tabs(columns).feed(b"\x1B[?7h\x1B[5;80Hw");
    assert_eq!(c.at(), (5, 80, true));
    c
}

// ---- Where HT goes ----------------------------------------------------------

#[test]
fn one_tab_from_every_column() {
    for tab in 1..=80 {
        for column in 1..=80 {
            let mut c = with_tabs(&[tab]);
            c.state.cursor.column = column;
            let expected = if column < tab { tab } else { 80 };
            assert_eq!(c.feed(b"\t").at(), (1, expected, false), "{tab} {column}");
        }
    }
}

#[test]
fn two_tabs_from_every_column() {
    for one in 1..=79 {
        // The next, the last of its eight, the first of the next, and the last.
        for other in [one + 1, (one + 7) / 8 * 8, (one + 7) / 8 * 8 + 1, 80] {
            if other <= one || other > 80 {
                continue;
            }
            for column in 1..=80 {
                let mut c = with_tabs(&[one, other]);
                c.state.cursor.column = column;
                let expected = match column {
                    _ if column < one => one,
                    _ if column < other => other,
                    _ => 80,
                };
                let at = c.feed(b"\t").at();
                assert_eq!(at, (1, expected, false), "{one} {other} {column}");
            }
        }
    }
}

#[test]
fn from_tab_to_tab() {
    let fresh = Console::new();
    let expected = [9, 17, 25, 33, 41, 49, 57, 65, 73, 80, 80];
    assert_eq!(round(&fresh, 11), expected);
    assert_eq!(round(&with_tabs(&[]), 2), [80, 80]);
    assert_eq!(round(&with_tabs(&[1]), 2), [80, 80]);
    assert_eq!(round(&with_tabs(&[80]), 2), [80, 80]);
    assert_eq!(round(&with_tabs(&[2, 8, 9, 79]), 5), [2, 8, 9, 79, 80]);
    let all: Vec<usize> = (1..=80).collect();
    assert_eq!(round(&with_tabs(&all), 79), all[1..]);
    // At once.
    assert_eq!(Console::fed(b"\t\t\t\t").at(), (1, 33, false));
}

/// All else stays: row, cells, modes, margins, shift, what is saved.
#[test]
fn nothing_else_changes() {
    for before in [
        &b""[..],
        b"\x1B[7;30H",
        b"\x1B[4;20h\x1B[?7h\x1B[24;74H",
        b"\x1B[5;10r\x1B[?6h\x1B[6;3H",
        b"\x1B[5;10r\x1B[12;80H",
        b"\x1B[1;7m\x1B[1\"qab\x8E",
        b"\x1B*0\x1B[3;9H\x1B7\x1B[4;20H\x8F",
        b"\x1B G\x1B[?25l\x1B[2*xq",
    ] {
        let mut c = Console::fed(before);
        c.ask();
        let after = c.clone().feed(b"\t");
        let mut expected = c.state.clone();
        let right = FRESH.into_iter().find(|&tab| tab > c.state.cursor.column);
        expected.cursor.column = right.unwrap_or(80);
        assert_eq!(after.state, expected, "{before:?}");
        assert_eq!(after.page, c.page);
        assert_eq!(after.status_line, c.status_line);
    }
}

#[test]
fn wrap_due_ends() {
    for tabs in [&[][..], &[80], &[1], &FRESH] {
        let c = due(tabs).feed(b"\t");
        assert_eq!(c.at(), (5, 80, false));
        // The next sign is put there.
        let c = c.feed(b"x");
        assert_eq!((c.at(), c.word(5, 80)), ((5, 80, true), b'x' as u16));
        assert_eq!(c.feed(b"\t\ty").word(5, 80), b'y' as u16);
    }
    // What is saved keeps it.
    let c = due(&[]).feed(b"\x1B7\t\x1B8");
    assert_eq!(c.at(), (5, 80, true));
    // Never set: from another column to 80.
    let c = Console::fed(b"\x1B[?7h\x1B[5;79Hw\t");
    assert_eq!(c.at(), (5, 80, false));
    let c = Console::fed(b"\x1B[?7h\x1B[5;74H\tx");
    assert_eq!(c.at(), (5, 80, true));
}

// ---- In sequences and strings -----------------------------------------------

#[test]
fn in_a_sequence_it_acts_at_once() {
    let c = Console::fed(b"\x1B[3\t");
    assert_eq!(c.at(), (1, 9, false));
    assert_eq!(c.feed(b"C").at(), (1, 12, false));
    assert_eq!(Console::fed(b"\x9B\t\t4C").at(), (1, 21, false));
    assert_eq!(Console::fed(b"\x1B\tE").at(), (2, 1, false));
    // HTS where HT went; TBC there.
    let c = Console::fed(b"\x1B[3C\x1B\tH");
    assert_eq!(c.state.tabs, flags(&FRESH));
    let c = Console::fed(b"\x1B[\tg");
    assert_eq!((c.at(), c.state.tabs), ((1, 9, false), flags(&FRESH[1..])));
    // In one that is ignored.
    assert_eq!(Console::fed(b"\x1B[1!2\tC").at(), (1, 9, false));
    assert_eq!(due(&[]).feed(b"\x1B[3\t").at(), (5, 80, false));
}

#[test]
fn in_a_string_it_is_lost() {
    for opening in [
        &b"\x1BP"[..],
        b"\x90",
        b"\x1B]0;",
        b"\x98",
        b"\x9E",
        b"\x9F",
    ] {
        let c = Console::fed(opening).feed(b"a\t\tb");
        assert_eq!(c.at(), (1, 1, false));
        assert_eq!(c.feed(b"\x1B\\\t").at(), (1, 9, false));
        assert_eq!(due(&[]).feed(opening).feed(b"\t").at(), (5, 80, true));
    }
}

#[test]
fn what_is_only_like_a_tab_does_nothing() {
    for bytes in [
        &b"\x89"[..],
        b"\x1BI",
        b"\x1B[I",
        b"\x1B[2I",
        b"\x1B[Z",
        b"\x1B[W",
        b"\x1B[2W",
        b"\x1B[5W",
        b"\x1B[?5W",
        b"\x1B[1g",
        b"\x1B[2g",
        b"\x1B[4g",
        b"\x1B[5g",
        b"\x1B[?3g",
        b"\x1B[>g",
        b"\x1B[3 g",
        b"\x1B[3:g",
    ] {
        for c in [Console::fed(b"\x1B[7;33H"), due(&[3, 80])] {
            let after = c.clone().feed(bytes);
            assert_eq!((after.state, after.page), (c.state, c.page), "{bytes:?}");
        }
    }
    // 89 and ESC I drop what is in progress.
    assert_eq!(Console::fed(b"\x1B[3\x89C").word(1, 1), b'C' as u16);
    assert_eq!(Console::fed(b"\x1B[3\x1BIC").word(1, 1), b'C' as u16);
    assert_eq!(Console::fed(b"\x90a\x89b").word(1, 1), b'b' as u16);
}

// ---- Set and taken away -----------------------------------------------------

#[test]
fn set_and_taken_away_in_every_column() {
    for column in 1..=80 {
        let mut c = with_tabs(&[]);
        c.state.cursor.column = column;
        let c = c.feed(b"\x88");
        assert_eq!(c.state.tabs, flags(&[column]));
        assert_eq!(c.at(), (1, column, false));
        assert_eq!(c.clone().feed(b"\x1B[g").state.tabs, [false; 80]);
        let all: Vec<usize> = (1..=80).collect();
        let mut c = with_tabs(&all);
        c.state.cursor.column = column;
        let others: Vec<usize> = all.iter().copied().filter(|&c| c != column).collect();
        assert_eq!(c.feed(b"\x1B[0g").state.tabs, flags(&others));
    }
    assert_eq!(Console::fed(b"\x1B[3g").state.tabs, [false; 80]);
    // With wrap due: in column 80, and it stays due.
    let c = due(&[]).feed(b"\x1BH");
    assert_eq!((c.at(), c.state.tabs), ((5, 80, true), flags(&[80])));
    let c = c.feed(b"\x1B[g");
    assert_eq!((c.at(), c.state.tabs), ((5, 80, true), flags(&[])));
}

#[test]
fn what_resets_do() {
    let c = with_tabs(&[2, 80]);
    assert_eq!(c.clone().feed(b"\x1Bc").state.tabs, flags(&FRESH));
    for bytes in [
        &b"\x1B[!p"[..],
        b"\x1B#8",
        b"\x1B8",
        b"\x1B7\x1B8",
        b"\x1B[2J",
        b"\x1B[2;9r",
        b"\x1B[1$~\x1B[1$}\x1B[0$~",
    ] {
        let after = c.clone().feed(bytes);
        assert_eq!(after.state.tabs, flags(&[2, 80]), "{bytes:?}");
    }
    // A tab set after ESC 7 stays, and so does one taken away.
    let c = c.feed(b"\x1B7\x1B[;5H\x88\x1B[;2H\x1B[g\x1B8");
    assert_eq!((c.at(), c.state.tabs), ((1, 1, false), flags(&[5, 80])));
}

// ---- The status line --------------------------------------------------------

#[test]
fn tabs_are_one_for_page_and_line() {
    let c = with_tabs(&[4, 40]).feed(b"\x1B[7;10H\x1B[1$~\x1B[1$}");
    assert_eq!(round(&c, 4), [4, 40, 80, 80]);
    let c = c.feed(b"\x1B[;20H\x88\t");
    assert_eq!((c.line_at(), c.at()), ((40, false), (7, 10, false)));
    let c = c.feed(b"\x1B[0$}\t");
    assert_eq!((c.line_at(), c.at()), ((40, false), (7, 20, false)));
}

#[test]
fn wrap_due_ends_on_the_line_alone() {
    let c = due(&[]).feed(b"\x1B[1$~\x1B[1$}\x1B[;80Hv");
    assert_eq!((c.line_at(), c.at()), ((80, true), (5, 80, true)));
    let on_line = c.clone().feed(b"\t");
    assert_eq!(
        (on_line.line_at(), on_line.at()),
        ((80, false), (5, 80, true))
    );
    assert_eq!(on_line.feed(b"x").status_line[79], b'x' as u16);
    let on_page = c.feed(b"\x1B[0$}\t");
    assert_eq!(
        (on_page.line_at(), on_page.at()),
        ((80, true), (5, 80, false))
    );
}

// ---- Forty columns ----------------------------------------------------------

#[test]
fn forty_columns_in_a_row() {
    let digits: Vec<String> = (0..40).map(|n| (n % 10).to_string()).collect();
    let even: Vec<usize> = (2..=80).step_by(2).collect();
    // HT before each: the last is in column 80, with wrap due, which CR ends.
    let row = format!("\t{}", digits.join("\t"));
    let mut c = with_tabs(&even).feed(b"\x1B[?7h\x1B[23H");
    for _ in 0..3 {
        c.more(row.as_bytes());
        assert!(c.at().1 == 80 && c.at().2);
        c.more(b"\r\n");
    }
    let expected = format!(" {}", digits.join(" "));
    let lines = c.lines(20, 24);
    assert!(lines[0].is_empty() && lines[4].is_empty());
    assert!(lines[1..4].iter().all(|line| *line == expected));
    // Empty fields leave what was there.
    let c = c.feed(b"\x1B[22H\t\t\t7\t\t8\r");
    let mut changed = expected.into_bytes();
    (changed[5], changed[9]) = (b'7', b'8');
    assert_eq!(c.line(22).as_bytes(), changed);
}
