//! The binary search finds the least top channel. The test has one station with one channel.

use std::alloc::{AllocError as NoMemory, Global};
use std::test::Fail;
use target_seek::search::TopSearch;
use target_seek::seek::seek_top;
use target_seek::sought::Sought;
use target_seek::top_test::{TopAnswer, TopTest};

// A top channel of a test, and its answer.
#[derive(Clone, Copy)]
struct Asked {
    top: u8,
    answer: TopAnswer,
}

// A station with one channel, the top channels whose tests are undecided, the number of tests until memory runs out, and the tests
// so far.
#[derive(Drop)]
struct OneStation {
    channel: u8,
    open: &'static [u8],
    most: usize,
    asked: Vec<Asked>,
}

impl TopTest for OneStation {
    ghost base = { λ test. one_station test.channel };

    ghost asked = { λ test. map (λ x. record { top = x.top; answer = x.answer }) test.asked.items };

    fn ask(&mut self, top: u8) -> Result<TopAnswer, NoMemory> {
        if self.asked.len() >= self.most {
            return Err(NoMemory);
        }
        let answer = answer_at(self.channel, self.open, top);
        self.asked.push(Asked { top, answer })?;
        Ok(answer)
    }
}

// Returns whether a station with this one channel fits up to `top`, or that the test is undecided.
fn answer_at(channel: u8, open: &[u8], top: u8) -> TopAnswer {
    if open.contains(&top) {
        return TopAnswer::Open;
    }
    if top < channel {
        return TopAnswer::Unfit;
    }
    TopAnswer::Fits
}

// More tests than any search makes.
const PLENTY: usize = 99;

// Returns a station with this channel and these undecided top channels, and with memory for `most` tests.
fn station_on(alloc: Global, channel: u8, open: &'static [u8], most: usize) -> OneStation {
    OneStation {
        channel,
        open,
        most,
        asked: Vec::new(alloc),
    }
}

// Returns the result of a search and the tested top channels.
fn found(
    alloc: Global,
    test: OneStation,
    first: u8,
    last: u8,
) -> Result<(Sought, Vec<u8>), NoMemory> {
    let mut test = test;
    let sought = seek_top(first, last, &mut test)?;
    let tops = test.asked.iter().map(|x| x.top).collect(alloc)?;
    Ok((sought, tops))
}

// The channel, the undecided top channels, the first and the last top channel, the result, and the tested top channels.
type Search = (u8, &'static [u8], u8, u8, Sought, &'static [u8]);

const SEARCHES: &[Search] = &[
    (
        14,
        &[],
        14,
        51,
        Sought::Least { top: 14 },
        &[51, 32, 23, 18, 16, 15, 14],
    ),
    (
        51,
        &[],
        14,
        51,
        Sought::Least { top: 51 },
        &[51, 32, 42, 47, 49, 50],
    ),
    // The station fits also below the first top channel.
    (14, &[], 33, 36, Sought::Least { top: 33 }, &[36, 34, 33]),
    // The station fits only above the last top channel.
    (37, &[], 14, 36, Sought::NoneFits, &[36]),
    (14, &[36], 14, 36, Sought::LastOpen, &[36]),
    // The test just below the least fit is undecided.
    (
        20,
        &[22],
        14,
        30,
        Sought::AboveOpen { top: 23 },
        &[30, 22, 26, 24, 23],
    ),
    // An undecided test further below the least fit, and one that the search does not make.
    (
        25,
        &[22],
        14,
        30,
        Sought::Least { top: 25 },
        &[30, 22, 26, 24, 25],
    ),
    (
        20,
        &[16],
        14,
        30,
        Sought::Least { top: 20 },
        &[30, 22, 18, 20, 19],
    ),
    // Only one top channel.
    (14, &[], 36, 36, Sought::Least { top: 36 }, &[36]),
    (37, &[], 36, 36, Sought::NoneFits, &[36]),
    (14, &[36], 36, 36, Sought::LastOpen, &[36]),
];

#[test]
fn finds_what_is_left(rt: HostRuntime) -> Result<(), Fail> {
    let alloc = rt.alloc();
    for (channel, open, first, last, sought, tops) in SEARCHES {
        assert!(rt; 14 <= *first && first <= last && *last <= 51);
        let test = station_on(alloc, *channel, open, PLENTY);
        let found = found(alloc, test, *first, *last)?;
        assert_eq!(rt;
            found.0,
            *sought,
            "channel {channel} from {first} to {last}"
        );
        assert_eq!(rt;
            found.1.as_slice(),
            *tops,
            "channel {channel} from {first} to {last}"
        );
    }
    Ok(())
}

#[test]
fn finds_each_channel_by_seven_questions(rt: HostRuntime) -> Result<(), Fail> {
    let alloc = rt.alloc();
    for channel in 14..52 {
        let found = found(alloc, station_on(alloc, channel, &[], PLENTY), 14, 51)?;
        assert_eq!(rt; found.0, Sought::Least { top: channel });
        assert!(rt; found.1.len() <= 7, "channel {channel}");
    }
    Ok(())
}

#[test]
fn goes_no_further_without_memory(rt: HostRuntime) -> Result<(), Fail> {
    let alloc = rt.alloc();
    let mut test = station_on(alloc, 40, &[], 2);
    assert!(rt; seek_top(14, 51, &mut test).is_err());
    assert_eq!(rt; test.asked.len(), 2);
    test.most = PLENTY;
    assert_eq!(rt; seek_top(14, 51, &mut test)?, Sought::Least { top: 40 });
    Ok(())
}

#[test]
fn is_driven_without_a_test_of_tops(rt: HostRuntime) -> Result<(), Fail> {
    let alloc = rt.alloc();
    let mut tops: Vec<u8> = Vec::new(alloc);
    let mut search = TopSearch::new(14, 51);
    while let Some(top) = search.next() {
        tops.push(top)?;
        search = search.with_top_answer(answer_at(20, &[19], top));
    }
    assert_eq!(rt; search.found(), Sought::AboveOpen { top: 20 });
    assert_eq!(rt; tops.as_slice(), [51, 32, 23, 18, 21, 20, 19].as_slice());
    Ok(())
}
