//! New cards: the usual forms, what format answers, and what the card is then.

use crate::{at, name, points};
use lfat_card::{calls, Answer, Card, CardView, Form, Operation, Refusal, NO_LIMIT};
use testkit::random::Random;

const HEADER: &str = include_str!("../../../../include/lfat.h");

/// The largest card of each usual cluster size, and the first sector count after it, by the table of the FAT paper.
const LARGEST: [(u32, u32); 7] = [
    (8_400, 1),
    (32_680, 2),
    (262_144, 4),
    (524_288, 8),
    (1_048_576, 16),
    (2_097_152, 32),
    (4_194_144, 64),
];

const K: Form = Form {
    total: 4_150,
    per_cluster: 1,
    log_clusters: 8,
};

/// What format answers where there is no window: WINDOW for a form that it would take.
fn judged(form: Form) -> Answer {
    Operation::Format { form }.run(&mut [], NO_LIMIT)
}

/// Every size has a form that format takes, with the cluster size of the table and a log of 32 sectors, or of one cluster.
#[test]
fn usual_forms() {
    let borders = LARGEST.iter().flat_map(|(most, _)| most - 2..=most + 2);
    let borders = borders.filter(|total| *total <= Form::MOST_SECTORS);
    let all = (4_150..=4_194_144).step_by(61);
    let small = 4_150..=12_000;
    let mut tried = 0;
    for total in all.chain(borders).chain(small) {
        let form = Form::for_sectors(total).expect("a FAT16 card");
        let due = LARGEST.iter().find(|(most, _)| total <= *most);
        let per_cluster = due.expect("within the table").1;
        assert_eq!((form.total, form.per_cluster), (total, per_cluster));
        assert_eq!(form.log_clusters * per_cluster, per_cluster.max(32));
        assert_eq!(judged(form), Answer::Refused(Refusal::Window), "{form:?}");
        tried += 1;
    }
    assert!(tried > 70_000, "{tried}");
}

/// There is no form for other sizes, and no card either.
#[test]
fn sizes_of_no_card() {
    assert_eq!(
        (Form::FEWEST_SECTORS, Form::MOST_SECTORS),
        (4_150, 4_194_144)
    );
    for total in [0, 1, 2_880, 4_149, 4_194_145, 4_194_304, 1 << 31, u32::MAX] {
        assert_eq!(Form::for_sectors(total), None, "{total}");
        for per_cluster in (0..7).map(|power| 1 << power) {
            let form = Form {
                total,
                per_cluster,
                log_clusters: 1,
            };
            assert_eq!(judged(form), Answer::Refused(Refusal::Size), "{form:?}");
        }
    }
}

/// The table in the C header is this one.
#[test]
fn the_header_says_the_same() {
    let row = |words: &str| -> Vec<u32> {
        let (_, rest) = HEADER.split_once(words).expect("the row");
        let line = rest.lines().next().unwrap_or_default();
        let numbers = line.split_whitespace().map(str::parse);
        numbers.map(|number| number.expect("a number")).collect()
    };
    let totals = row(" *     sectors, from 4150 up to ");
    let per_cluster = row(" *     per_cluster ");
    let log_clusters = row(" *     log_clusters ");
    assert_eq!(totals.len(), LARGEST.len());
    for (at, &total) in totals.iter().enumerate() {
        let form = Form {
            total,
            per_cluster: per_cluster[at],
            log_clusters: log_clusters[at],
        };
        assert_eq!(Form::for_sectors(total), Some(form));
        let above = Form::for_sectors(total + 1).map(|form| form.per_cluster);
        assert_eq!(above, per_cluster.get(at + 1).copied());
    }
}

/// Over any bytes, by the wrapper as by the plain implementation; an empty card that is then used.
#[test]
fn an_empty_card() {
    let mut random = Random::new(0x9B05_688C_2B3E_6C1F);
    let usual =
        [4_150, 8_400, 8_401, 32_681].map(|total| Form::for_sectors(total).expect("a card"));
    for (form, stores) in
        [K].iter()
            .chain(&usual)
            .zip([74, 98, 2 + 66 + 64, 2 + 34 + 64, 2 + 64 + 64])
    {
        let garbage = random.bytes(form.total as usize * 512 + 700);
        let (mut window, mut due) = (garbage.clone(), garbage);
        let Form {
            total,
            per_cluster,
            log_clusters,
        } = *form;
        reference::format(&mut due, total, per_cluster, log_clusters, NO_LIMIT);
        let mut card = Card::new(&mut window);
        assert_eq!(card.format(*form), Ok(stores), "{form:?}");
        assert!(card.bytes() == due, "{form:?}");
        assert_eq!(card.list(), Ok(Vec::new()));
        assert_eq!(card.recover(), Ok(0));
        let route = name("ROUTE.CUT");
        card.create(route, at()).expect("created");
        card.append(route, &points(70_000), at()).expect("appended");
        assert_eq!(card.read_whole(route), Ok(points(70_000)));
        // Once more: the file is gone, and its bytes are in free clusters.
        assert_eq!(card.format(*form), Ok(stores));
        assert_eq!(card.list(), Ok(Vec::new()));
        assert_eq!(card.read_whole(route), Err(Refusal::Absent));
    }
}

/// The largest card of all; memory is taken for what is stored only.
#[test]
fn the_largest_card() {
    let mut window = vec![0; 4_194_144 * 512];
    let mut card = Card::new(&mut window);
    let form = Form::for_sectors(4_194_144).expect("the largest");
    assert_eq!(card.format(form), Ok(2 + 512 + 32 + 64));
    assert_eq!(card.list(), Ok(Vec::new()));
    let room = 65_523 * 64 * 512;
    assert_eq!(card.fits(room), Ok(Some(65_525)));
    assert_eq!(card.fits(room + 1), Ok(None));
}

/// SIZE is asked before WINDOW, and nothing else is; a refused format changes no byte.
#[test]
fn refusals() {
    let sizes = [
        Form { total: 4_149, ..K },
        Form {
            per_cluster: 0,
            ..K
        },
        Form {
            per_cluster: 3,
            ..K
        },
        Form {
            per_cluster: 257,
            ..K
        },
        Form {
            log_clusters: 0,
            ..K
        },
        Form {
            log_clusters: 129,
            ..K
        },
        // 2 sectors each: 2^32 and 0.
        Form {
            total: 8_401,
            per_cluster: 2,
            log_clusters: 1 << 31,
        },
    ];
    let start = points(4_150 * 512);
    let mut window = start.clone();
    for form in sizes {
        for length in [0, 100, 4_150 * 512] {
            let refused = Card::new(&mut window[..length]).format(form);
            assert_eq!(refused, Err(Refusal::Size), "{form:?}");
        }
    }
    for length in [0, 100, 512, 4_150 * 512 - 1] {
        let refused = Card::new(&mut window[..length]).format(K);
        assert_eq!(refused, Err(Refusal::Window), "{length}");
    }
    assert!(window == start);
    assert_eq!(
        Card::new(&mut window).format(Form {
            log_clusters: 128,
            ..K
        }),
        Ok(194)
    );
}

/// Cut after every store: no card until it is formatted again, and then the same one.
#[test]
fn cut_and_again() {
    let mut random = Random::new(0x1F83_D9AB_FB41_BD6B);
    let start = random.bytes(4_150 * 512);
    let format = Operation::Format { form: K };
    let mut due = start.clone();
    assert_eq!(format.run(&mut due, NO_LIMIT), Answer::Done(74));
    for limit in 1..74 {
        let mut window = start.clone();
        let mut card = Card::new(&mut window);
        assert_eq!(card.run(&format, limit), Answer::Stopped(limit));
        assert_eq!(card.recover(), Err(Refusal::Boot));
        assert_eq!(card.list(), Err(Refusal::Boot));
        assert_eq!(card.create(name("ROUTE.CUT"), at()), Err(Refusal::Boot));
        assert_eq!(card.format(K), Ok(74));
        assert!(window == due, "{limit}");
    }
    assert_eq!(calls::format(&mut due, 4_150, 1, 8, 74), Answer::Done(74));
    assert_eq!(CardView::new(&due).list(), Ok(Vec::new()));
}
