//! The lister's text.

use super::*;
use crate::list;

#[test]
fn the_five_lines_of_m2() {
    let text = list(&sample(Setting::new(2, 0, 0)));
    assert_eq!(text, "2 12 4\n0 2 7\n1 3 9\n2 5 5\n3 10 300\n");
}

#[test]
fn every_kind_lists_the_same_ranks() {
    for setting in sample_settings() {
        let text = list(&sample(setting));
        let wanted = format!("{} 12 4\n0 2 7\n1 3 9\n2 5 5\n3 10 300\n", setting.kind);
        assert_eq!(text, wanted);
    }
}

#[test]
fn no_stored_cells_is_one_line() {
    let file = line(Setting::new(5, 0, 2), &[0; 12]).unwrap();
    assert_eq!(list(&file), "5 12 0\n");
    let file = line(Setting::new(6, 1, 1), &[0; 12]).unwrap();
    assert_eq!(list(&file), "6 12 0\n");
}

#[test]
fn a_refused_file_is_one_line() {
    assert_eq!(list(&[]), "refused 1\n");
    assert_eq!(
        list(&with_byte(&sample(Setting::new(2, 0, 0)), 0, 9)),
        "refused 2\n"
    );
}

#[test]
fn up_to_65536_bytes_are_read() {
    // 52 bytes of header and 8 for each stored cell: 65,532 bytes for 8,185 cells.
    let file = line(Setting::new(2, 0, 0), &[1; 8185]).unwrap();
    assert_eq!(file.len(), 65_532);
    assert_eq!(list(&file).lines().count(), 8186);
    // Kind 1 and all cells stored: 52, 8 and 4 for each cell.
    let file = line(Setting::new(1, 0, 0), &[1; 16369]).unwrap();
    assert_eq!(file.len(), 65_536);
    assert_eq!(list(&file).lines().count(), 16370);
    assert_eq!(list(&vec![0; 65_536]), "refused 2\n");
    assert_eq!(list(&vec![0; 65_537]), "too long\n");
}
