//! What an input gives: files whose header is right, pictures, unfolded inputs; and that a fault would be noticed.

use fuzz::control::{self, Control, Form};
use fuzz::fence::Fence;
use fuzz::{input, tokens, trial};
use side_by_side::random::Random;
use side_by_side::sides::{Sides, Wanted};

/// An input of any bytes with a form.
fn any_input(form: u8, random: &mut Random) -> Vec<u8> {
    let length = control::LENGTH + random.below(400);
    let mut input: Vec<u8> = (0..length).map(|_| random.word() as u8).collect();
    input[0] = input[0] & !3 | form;
    input
}

/// The input's file, if it has one.
fn file_of(input: &[u8]) -> Option<Vec<u8>> {
    trial::file(&mut Sides::new(1), input, &Control::of(input))
}

#[test]
fn an_agreeing_file_is_never_refused_for_its_header() {
    let mut random = Random::new(5);
    let mut kinds = [0; 7];
    for _ in 0..4000 {
        let input = any_input(1, &mut random);
        let file = file_of(&input).unwrap();
        let number = reader::check(&file).map_or_else(|refusal| refusal.number(), |_| 0);
        assert!(number == 0 || number == 6, "{number} {file:?}");
        kinds[usize::from(file[0])] += 1;
    }
    assert!(kinds[1..].iter().all(|&files| files > 100), "{kinds:?}");
}

#[test]
fn a_made_file_is_accepted() {
    let mut random = Random::new(6);
    let mut made = 0;
    for _ in 0..400 {
        if let Some(file) = file_of(&any_input(2, &mut random)) {
            assert!(reader::check(&file).is_ok(), "{file:?}");
            made += 1;
        }
    }
    assert!(made > 200, "{made}");
}

#[test]
fn patched_files_are_accepted_or_refused() {
    let mut random = Random::new(7);
    let files: Vec<_> = (0..400)
        .filter_map(|_| file_of(&any_input(3, &mut random)))
        .collect();
    let accepted = files
        .iter()
        .filter(|file| reader::check(file).is_ok())
        .count();
    assert!(
        accepted > 20 && files.len() - accepted > 20,
        "{accepted} of {}",
        files.len()
    );
}

#[test]
fn tokens_are_gaps_and_runs() {
    // A gap of 2 and a run of 2, a gap of 1 and a run of 1, a gap of 4 and a run of 1.
    let words = tokens::words(&[0x12, 6, 0x01, 4, 0x04, 43], 1, 12, 0);
    let stored: Vec<usize> = (0..12).filter(|&at| words[at] != 0).collect();
    assert_eq!(stored, [2, 3, 5, 10]);
    let words = tokens::words(&[0x0f, 0, 255, 0], 3, 1000, 9);
    let stored: Vec<usize> = (0..1000).filter(|&at| words[at] != 9).collect();
    assert_eq!(stored, [255, 511, 767]);
}

#[test]
fn an_unfolded_input_gives_the_same_file() {
    let mut random = Random::new(8);
    let mut unfolded = 0;
    for form in [2, 3] {
        for _ in 0..200 {
            let folded = any_input(form, &mut random);
            if let Some(raw) = input::unfolded(&folded, false) {
                assert_eq!(Control::of(&raw).form, Form::Raw);
                assert_eq!(file_of(&raw), file_of(&folded));
                unfolded += 1;
            }
        }
    }
    assert!(unfolded > 200, "{unfolded}");
    assert_eq!(input::unfolded(&any_input(0, &mut random), false), None);
}

#[test]
#[should_panic(expected = "differs at Some(16)")]
fn a_refusal_that_alters_its_destination_is_noticed() {
    let wanted: Wanted<u8> = Err(9);
    let engine = |dst: &mut [u8]| {
        dst[0] ^= 1;
        9
    };
    Sides::new(1).put_out_in("write", &wanted, 60, engine, String::new);
}

#[test]
#[should_panic(expected = "differs at Some(18)")]
fn an_element_past_the_result_is_noticed() {
    let wanted: Wanted<u8> = Ok(vec![1, 2]);
    let engine = |dst: &mut [u8]| {
        dst[..2].copy_from_slice(&[1, 2]);
        dst[2] ^= 1;
        0
    };
    Sides::new(1).put_out_in("write", &wanted, 3, engine, String::new);
}

/// Reads one byte past the end, or before the beginning, of what a fence lends; the name of the variable says which.
#[test]
#[ignore = "ends its process"]
fn reads_past_a_fence() {
    let mut fence = Fence::around(100);
    let leading = std::env::var_os("BEFORE").is_some();
    let lent = fence.lend(&[7; 100], leading);
    let at = if leading {
        lent.as_ptr().wrapping_sub(1)
    } else {
        lent.as_ptr().wrapping_add(100)
    };
    // Not sound on purpose: the page is forbidden.
    let byte = unsafe { at.read_volatile() };
    println!("read {byte}");
}

#[test]
fn a_fence_ends_the_process_that_reads_past_it() {
    use std::os::unix::process::ExitStatusExt;
    const SEGMENTATION_FAULT: i32 = 11;
    for before in [false, true] {
        let mut child = std::process::Command::new(std::env::current_exe().unwrap());
        child.args(["--exact", "reads_past_a_fence", "--ignored"]);
        if before {
            child.env("BEFORE", "1");
        }
        let output = child.output().unwrap();
        assert_eq!(
            output.status.signal(),
            Some(SEGMENTATION_FAULT),
            "{output:?}"
        );
    }
}
