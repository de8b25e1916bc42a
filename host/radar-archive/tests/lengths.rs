//! The lengths in all settings, against the files that the engine puts out.

use std::time::Instant;

use radar_archive::{
    calls, Archive, Dimensions, Kind, Lengths, Offer, Picture, Refusal, Setting, MOST_CELLS,
};
use side_by_side::random::Random;
use side_by_side::settings;
use side_by_side::textures::{Sketch, NAMES};

const SEED: u64 = 20_020_402;

/// What the comparisons have met.
#[derive(Debug, Default)]
struct Met {
    pictures: usize,
    settings: usize,
    unfit: usize,
}

/// Settings by kind, width, step.
fn all_settings() -> Vec<Setting> {
    let mut all: Vec<Setting> = settings::all().into_iter().map(settings::engine).collect();
    all.sort();
    assert_eq!(all.len(), 1087);
    all
}

/// The lengths of a picture's files in all settings as the engine puts them out.
fn offers(archive: &Archive<&[u8]>, all: &[Setting], met: &mut Met) -> Vec<Offer> {
    let mut offers = Vec::new();
    for &setting in all {
        match archive.change(setting) {
            Ok(file) => offers.push(Offer {
                setting,
                length: file.len(),
            }),
            Err(Refusal::Unfit) => met.unfit += 1,
            Err(refusal) => panic!("change to {setting:?}: {refusal}"),
        }
        met.settings += 1;
    }
    offers
}

/// The number of runs of a picture: stored cells without a stored cell before them.
fn runs(picture: &Picture) -> u32 {
    let mut before = picture.empty;
    let mut runs = 0;
    for &word in &picture.words {
        runs += u32::from(word != picture.empty && before == picture.empty);
        before = word;
    }
    runs
}

/// The shortest of some offers, the first on equal length.
fn shortest(offers: &[Offer], kinds: &[Kind]) -> Option<Offer> {
    let mut best: Option<Offer> = None;
    for offer in offers {
        let shorter = best.is_none_or(|best| offer.length < best.length);
        if kinds.contains(&offer.setting.kind) && shorter {
            best = Some(*offer);
        }
    }
    best
}

/// Compares the lengths of a picture, measured from its file in a setting, with the engine's in all settings.
fn compare(picture: &Picture, from: Setting, all: &[Setting], met: &mut Met) {
    let Ok(file) = picture.make(from) else {
        return;
    };
    let archive = Archive::open(&file[..]).unwrap();
    let lengths = Lengths::of(&archive);
    let offers = offers(&archive, all, met);
    for &setting in all {
        let wanted = offers.iter().find(|offer| offer.setting == setting);
        let wanted = wanted.map(|offer| offer.length);
        assert_eq!(
            lengths.of_setting(setting),
            wanted,
            "{setting:?} {picture:?}"
        );
    }
    assert_eq!(lengths.runs(), runs(picture), "{picture:?}");
    for kind in Kind::ALL {
        let wanted = shortest(&offers, &[kind]).unwrap();
        assert_eq!(lengths.shortest_of_kind(kind), wanted, "{picture:?}");
    }
    let best = shortest(&offers, &Kind::ALL).unwrap();
    assert_eq!(lengths.shortest(), best);
    assert_eq!(archive.best(), best);
    met.pictures += 1;
}

/// A line of words with the empty word 0.
fn line(words: Vec<u32>) -> Picture {
    Picture {
        dimensions: Dimensions::of(&[words.len() as u32]).unwrap(),
        empty: 0,
        words,
    }
}

#[test]
fn every_line_of_up_to_nine_cells() {
    let all = all_settings();
    let mut met = Met::default();
    for cells in 1..=9 {
        for stored in 0u32..1 << cells {
            let words = (0..cells).map(|at| stored >> at & 1).collect();
            let from = all[(stored as usize * 7 + cells) % all.len()];
            compare(&line(words), from, &all, &mut met);
        }
    }
    println!("{met:?}");
    assert_eq!(met.pictures, 1022);
}

#[test]
fn pictures_of_all_textures() {
    println!("seed {SEED}");
    let all = all_settings();
    let mut random = Random::new(SEED);
    let mut met = Met::default();
    for index in 0..40 * NAMES.len() {
        let sketch = Sketch::of(NAMES[index % NAMES.len()], &mut random);
        let picture = Picture {
            dimensions: Dimensions::of_numbers(sketch.dimensions, sketch.extents),
            empty: sketch.empty,
            words: sketch.words,
        };
        let from = settings::engine(settings::any(&mut random));
        compare(&picture, from, &all, &mut met);
    }
    println!("{met:?}");
    assert!(met.pictures > 300 && met.unfit > 10_000);
}

/// Differences of 1 to some hundreds over more ranks than are measured at a time, so that groups reach across.
#[test]
fn many_ranks() {
    println!("seed {SEED}");
    let all = all_settings();
    let mut met = Met::default();
    for most in [1, 2, 3, 40, 300] {
        let mut random = Random::new(SEED + most as u64);
        let mut words = Vec::new();
        for rank in 1..=70_001 {
            let gap = random.below(most);
            words.resize(words.len() + gap, 0);
            words.push(rank);
        }
        compare(&line(words), Setting::runs(), &all, &mut met);
    }
    println!("{met:?}");
    assert_eq!(met.pictures, 5);
}

/// The largest offset in a group on either side of the place where the measuring goes on with other ranks.
#[test]
fn one_wide_gap_among_many_ranks() {
    let all = all_settings();
    let mut met = Met::default();
    for before in [1, 254, 255, 32_767, 32_768, 32_769, 65_535, 65_536, 65_790] {
        let mut words = vec![1; 65_800];
        words.splice(before..before, vec![0; 300]);
        compare(&line(words), Setting::runs(), &all, &mut met);
    }
    println!("{met:?}");
    assert_eq!(met.pictures, 9);
}

#[test]
fn settings_that_are_not_allowed_have_no_length() {
    println!("seed {SEED}");
    let mut random = Random::new(SEED);
    let file = line(vec![0, 0, 7, 9, 0, 5, 0, 0, 0, 0, 300, 0])
        .make(Setting::runs())
        .unwrap();
    let archive = Archive::open(&file).unwrap();
    let lengths = Lengths::of(&archive);
    let mut refused = 0;
    for _ in 0..10_000 {
        let numbers = settings::wrong(&mut random);
        let setting = Setting::try_from(numbers);
        let length = setting.ok().and_then(|setting| lengths.of_setting(setting));
        let changed = calls::change(archive.bytes(), numbers, &mut [0; 200]);
        assert_eq!(length, changed.ok(), "{numbers:?}");
        refused += usize::from(length.is_none());
    }
    assert!(refused > 5_000, "{refused}");
}

/// The sample of document 01 and its lengths there.
#[test]
fn the_sample() {
    let picture = line(vec![0, 0, 7, 9, 0, 5, 0, 0, 0, 0, 300, 0]);
    let file = picture.make(Setting::jumps(1)).unwrap();
    let lengths = Lengths::of(&Archive::open(&file).unwrap());
    assert_eq!(lengths.runs(), 3);
    let found = [
        Setting::runs(),
        Setting::positions(),
        Setting::base_offset(1, 2),
        Setting::jumps(1),
        Setting::paged_runs(2),
        Setting::pointed_jumps(1, 2),
    ]
    .map(|setting| lengths.of_setting(setting));
    assert_eq!(found, [92, 84, 80, 76, 108, 80].map(Some));
    let shortest = Kind::ALL.map(|kind| {
        let Offer { setting, length } = lengths.shortest_of_kind(kind);
        (setting.width, setting.step, length)
    });
    let wanted = [
        (0, 0, 92),
        (0, 0, 84),
        (1, 4, 76),
        (1, 0, 76),
        (0, 3, 92),
        (1, 1, 80),
    ];
    assert_eq!(shortest, wanted);
    let offer = lengths.shortest();
    assert_eq!(offer.setting, Setting::base_offset(1, 4));
}

/// The time on the largest pictures, printed and not tested; some lengths are compared.
#[test]
fn the_largest_pictures() {
    let cells = MOST_CELLS as usize;
    let every_other = (0..MOST_CELLS).map(|at| at & 1).collect();
    for (name, words) in [("all stored", vec![7; cells]), ("every other", every_other)] {
        let picture = line(words);
        let runs = runs(&picture);
        for from in [
            Setting::runs(),
            Setting::positions(),
            Setting::base_offset(2, 255),
            Setting::jumps(1),
            Setting::paged_runs(2),
            Setting::pointed_jumps(1, 2),
        ] {
            let file = picture.make(from).unwrap();
            let archive = Archive::open(&file).unwrap();
            let start = Instant::now();
            let lengths = Lengths::of(&archive);
            let offer = lengths.shortest();
            let seconds = start.elapsed().as_secs_f64();
            println!("{name}, from {}: {seconds:.2} s, {offer:?}", from.kind);
            assert_eq!(lengths.of_setting(from), Some(file.len()));
            assert_eq!(lengths.runs(), runs);
            let best = archive.change(offer.setting).unwrap();
            assert_eq!(best.len(), offer.length);
        }
    }
}
