//! The clock face (document 02, T-09): the library converts and mirrors as the reference does, and the reference keeps
//! what is wanted of mirrors and arcs.

use reference::clock_face::{mirrored_place, packed, packed_time, place_of_time, time_of_place, Arc, PLACES};
use reference::frame::Refusal;
use tray::boundary::{mirror_of, place_of, time_of};

/// Numbers from 0 on, those about the ends of 8, 16 and 32 bits, and some between.
fn numbers() -> impl Iterator<Item = u32> + Clone {
    let about = [256, 65536, 65536 * 720, 1 << 31].into_iter().flat_map(|end: u32| end - 130..end + 130);
    (0..1500).chain(about).chain((0..32).map(|bit| 3 << bit)).chain(u32::MAX - 1500..=u32::MAX)
}

#[test]
fn the_library_converts_as_the_reference_does() {
    let mut refused = 0;
    for place in numbers() {
        assert_eq!(time_of(place), packed(time_of_place(place).map(packed_time)), "the time of {place}");
        assert_eq!(mirror_of(place), packed(mirrored_place(place)), "the mirror of {place}");
        refused += usize::from(time_of(place) == 65536 * 21 && mirror_of(place) == 65536 * 21);
    }
    assert_eq!(refused, numbers().filter(|&place| place > 719).count());
}

#[test]
fn times_are_converted_as_by_the_reference() {
    let mut places = Vec::new();
    let odd = || (0..70).chain(numbers().filter(|number| number % 37 == 0 || *number > u32::MAX - 20));
    for (hour, minute) in odd().flat_map(|hour| odd().map(move |minute| (hour, minute))) {
        let (place, time) = (place_of_time(hour, minute), format!("{hour}:{minute:02}"));
        assert_eq!(place_of(hour, minute), packed(place), "the place of {time}");
        match place {
            Ok(place) => places.push(place),
            Err(refusal) => assert!(refusal == Refusal::Place && !((1..=12).contains(&hour) && minute < 60), "{time}"),
        }
    }
    places.sort_unstable();
    places.dedup();
    assert_eq!(places, (0..PLACES).collect::<Vec<u32>>(), "every place has a time");
}

/// "and back"; "mirroring twice gives p".
#[test]
fn there_and_back() {
    for place in 0..PLACES {
        let (hour, minute) = time_of_place(place).unwrap();
        assert_eq!(place_of_time(hour, minute), Ok(place));
        assert_eq!(mirrored_place(mirrored_place(place).unwrap()), Ok(place));
    }
    assert_eq!([(12, 0), (12, 1), (1, 0), (11, 59)].map(|(h, m)| place_of_time(h, m)), [0, 1, 60, 719].map(Ok));
    assert_eq!([0, 1, 90, 360, 719].map(mirrored_place), [0, 719, 630, 360, 1].map(Ok));
}

/// The arcs of some lengths from every start.
fn arcs() -> impl Iterator<Item = Arc> {
    let lengths = [0, 1, 2, 59, 360, 717, 718, 719];
    (0..PLACES).flat_map(move |start| lengths.map(|length| Arc { start, length }))
}

/// An arc has the places that are met on the way from its start, so many on.
#[test]
fn an_arc_has_what_lies_on_the_way() {
    for arc in arcs() {
        let mut met = [false; PLACES as usize];
        (0..=arc.length).for_each(|step| met[((arc.start + step) % PLACES) as usize] = true);
        assert!((0..PLACES).all(|place| arc.has(place) == met[place as usize]), "{arc:?}");
        assert!(
            ![PLACES, PLACES + arc.start, 65536 + arc.start, u32::MAX].iter().any(|&place| arc.has(place)),
            "{arc:?}"
        );
    }
}

/// "p lies in an arc exactly when its mirror lies in the arc of the same length starting at (720 - start - length)
/// modulo 720".
#[test]
fn mirrored_places_lie_in_mirrored_arcs() {
    for arc in arcs() {
        let mirror = Arc { start: (2 * PLACES - arc.start - arc.length) % PLACES, ..arc };
        let mirrored = |place: u32| mirrored_place(place).is_ok_and(|it| mirror.has(it));
        assert!((0..PLACES).all(|place| arc.has(place) == mirrored(place)), "{arc:?}");
    }
}
