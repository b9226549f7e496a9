//! States that nobody loaded: bytes of a state changed in one place, and states made of random bytes. Some are unsound, some sound and odd.

use deebqoshaan::raw::{Rights, State};

use crate::books::word;
use crate::layout;
use crate::random::Random;

/// That state, changed.
pub fn poked(random: &mut Random, state: &State) -> State {
    let mut state = state.clone();
    match random.below(40) {
        0 => state = noise(random),
        1 => state = sound_noise(random),
        2..=19 => poke_out(random, &mut state.rights),
        20..=21 => poke_less(random, &mut state.rights),
        22..=25 => poke_name(random, &mut state),
        26..=33 => poke_record(random, &mut state),
        34..=36 => poke_beyond(random, &mut state.rights),
        _ => poke_any(random, &mut state),
    }
    state
}

/// A host, an interface and an entry that are in use, by their places.
fn in_use(random: &mut Random, rights: &Rights) -> (usize, usize, usize) {
    let (host, i) = (random.below(usize::from(rights.hosts)) % 32, random.below(usize::from(rights.interfaces)) % 8);
    let (last, any) = (usize::from(rights.entries[i]).clamp(1, 16) - 1, random.below(usize::from(rights.entries[i])) % 16);
    (host, i, 16 * i + random.pick(&[any, any, last]))
}

/// A count, a length or a word that is out of its range.
fn poke_out(random: &mut Random, rights: &mut Rights) {
    let (host, i, entry) = in_use(random, rights);
    let commands = usize::from(rights.commands[i].min(63));
    match random.below(7) {
        0 => {
            rights.hosts = random.pick(&[33, 34, 255, 256, 65_535]);
            some_for_none(&mut rights.sizes);
        }
        1 => {
            rights.interfaces = random.pick(&[9, 10, 255, 256, 65_535]);
            [&mut rights.spans, &mut rights.commands, &mut rights.entries].into_iter().for_each(|counts| some_for_none(counts));
        }
        2 => rights.sizes[host] = random.pick(&[0, 257, 512, 65_535]),
        3 => rights.spans[i] = random.pick(&[0, 257, 512, 65_535]),
        4 => rights.commands[i] = random.pick(&[0, 65, 128, 65_535]),
        5 => rights.entries[i] = random.pick(&[0, 17, 256, 65_535]),
        _ => rights.words[entry] |= 1 << random.between(commands, 63),
    }
}

/// Lengths and counts that aren't 0, so that nothing but the count of them is wrong.
fn some_for_none(counts: &mut [u16]) {
    counts.iter_mut().for_each(|count| *count = (*count).max(1));
}

/// A count or a word that is less than it was.
fn poke_less(random: &mut Random, rights: &mut Rights) {
    let (_, i, entry) = in_use(random, rights);
    let less = |random: &mut Random, count: u16| random.below(usize::from(count) + 1) as u16;
    match random.below(5) {
        0 => rights.commands[i] = less(random, rights.commands[i]),
        1 => rights.hosts = less(random, rights.hosts),
        2 => rights.interfaces = less(random, rights.interfaces),
        3 => rights.entries[i] = less(random, rights.entries[i]),
        _ => rights.words[entry] &= random.word(),
    }
}

/// A name that another host has too, a shorter one, or a letter that is none.
fn poke_name(random: &mut Random, state: &mut State) {
    let (one, other) = (random.below(usize::from(state.rights.hosts)) % 32, random.below(usize::from(state.rights.hosts)) % 32);
    match random.below(4) {
        0 => state.names[256 * one + random.below(4)] = random.word() as u8,
        1 => state.rights.sizes[one] = state.rights.sizes[one].saturating_sub(1),
        _ => {
            state.names.copy_within(256 * one..256 * (one + 1), 256 * other);
            state.rights.sizes[other] = state.rights.sizes[one];
        }
    }
}

/// A record: another phase, a tag that means nothing, a number near the end, other bytes.
fn poke_record(random: &mut Random, state: &mut State) {
    let records = &mut state.records;
    let i = random.below(usize::from(state.rights.hosts).max(1)) % 32;
    match random.below(6) {
        0 => records.tags[i] = random.pick(&[4, 5, 128, 130, 255]),
        1 => records.tags[i] = random.pick(&[0, 1, 2, 3]),
        2 => records.lasts[i] = random.pick(&[255, 256, 32_767, 32_768, 65_533, 65_534, 65_535]),
        3 => random.fill(&mut records.challenges[16 * i..16 * (i + 1)]),
        4 => random.fill(&mut records.keys[16 * i..16 * (i + 1)]),
        _ => {
            records.tags[i] = random.pick(&[0, 7, 255]);
            records.lasts[i] = random.two_bytes();
            random.fill(&mut records.keys[16 * i..16 * (i + 1)]);
        }
    }
}

/// What lies beyond a count, which nobody judges.
fn poke_beyond(random: &mut Random, rights: &mut Rights) {
    let (hosts, interfaces) = (usize::from(rights.hosts), usize::from(rights.interfaces));
    let values = [0, 1, 255, 257, 65_535];
    let (host, interface) = (random.between(hosts.min(31), 31), random.between(interfaces.min(7), 7));
    if hosts < 32 {
        rights.sizes[host] = random.pick(&values);
    }
    if interfaces < 8 {
        rights.spans[interface] = random.pick(&values);
        rights.commands[interface] = random.pick(&values);
        rights.entries[interface] = random.pick(&values);
    }
    let i = random.below(interfaces) % 8;
    for word in &mut rights.words[16 * i..16 * (i + 1)][usize::from(rights.entries[i]).min(16)..] {
        *word = random.word();
    }
}

/// A bit of anything.
fn poke_any(random: &mut Random, state: &mut State) {
    let (small, bit) = (1u16 << random.below(16), 1u8 << random.below(8));
    let rights = &mut state.rights;
    match random.below(14) {
        0 => rights.words[random.below(128)] ^= 1 << random.below(64),
        1 => rights.hosts ^= small,
        2 => rights.interfaces ^= small,
        3 => rights.groups[random.below(32)] ^= small,
        4 => rights.sizes[random.below(32)] ^= small,
        5 => rights.spans[random.below(8)] ^= small,
        6 => rights.commands[random.below(8)] ^= small,
        7 => rights.entries[random.below(8)] ^= small,
        8 => rights.owners[random.below(128)] ^= small,
        9 => rights.secrets[random.below(128)] ^= bit,
        10 => state.records.tags[random.below(32)] ^= bit,
        11 => state.records.challenges[random.below(512)] ^= bit,
        12 => state.names[random.below(8_192)] ^= bit,
        _ => state.labels[random.below(2_048)] ^= bit,
    }
}

/// A state of random bytes.
fn noise(random: &mut Random) -> State {
    let mut state = layout::empty();
    random.fill(&mut state.names);
    random.fill(&mut state.labels);
    random.fill(&mut state.rights.secrets);
    random.fill(&mut state.records.tags);
    random.fill(&mut state.records.challenges);
    random.fill(&mut state.records.keys);
    state.rights.words = std::array::from_fn(|_| random.word());
    state.records.lasts = std::array::from_fn(|_| random.two_bytes());
    noisy_numbers(random, &mut state.rights);
    state
}

fn noisy_numbers(random: &mut Random, rights: &mut Rights) {
    let numbers = [&mut rights.groups[..], &mut rights.sizes, &mut rights.spans, &mut rights.commands, &mut rights.entries, &mut rights.owners];
    numbers.into_iter().flatten().for_each(|number| *number = random.two_bytes());
    (rights.hosts, rights.interfaces) = (random.two_bytes(), random.two_bytes());
}

/// A state of random bytes that is sound, with few names and few groups.
fn sound_noise(random: &mut Random) -> State {
    let mut state = noise(random);
    let rights = &mut state.rights;
    (rights.hosts, rights.interfaces) = (random.below(33) as u16, random.below(9) as u16);
    rights.groups.iter_mut().chain(&mut rights.owners).for_each(|group| *group %= 3);
    rights.sizes.iter_mut().chain(&mut rights.spans).for_each(|size| *size = random.pick(&[1, 2, 3, 255, 256]));
    rights.commands = std::array::from_fn(|_| random.between(1, 64) as u16);
    rights.entries = std::array::from_fn(|_| random.between(1, 16) as u16);
    rights.words = std::array::from_fn(|k| word(random, rights.commands[k / 16]));
    state.records.tags.iter_mut().for_each(|tag| *tag %= 5);
    state
}
