//! The lists of a seed.

use crate::list::{List, head, shared};
use crate::maker::{Maker, Mood, Order, Seen};
use crate::model::Config;
use crate::programs::PROGRAM;
use crate::random::Random;

/// Of six lists in turn one is for the program, one of any configuration, one adverse, one clearing, one tied and one
/// shared.
pub const KINDS: u64 = 6;
pub const ADVERSE: u64 = 2;
pub const CLEARING: u64 = 3;
pub const TIED: u64 = 4;
pub const SHARED: u64 = 5;

/// List `number` of a seed.
pub fn list(seed: u64, number: u64, seen: &mut Seen) -> List {
    let random = &mut Random::new(seed, number);
    let kind = number % KINDS;
    if kind == 1 && random.chance(350) {
        return refused(random);
    }
    let (config, mood) = drawn(random, kind);
    let length = random.within(20, 40 + 80 * config.n) * config.boards.min(4);
    let length = length.min(80_000 / config.v());
    let noise = kind < ADVERSE && random.chance(50);
    let partial = if random.chance(250) { random.within(1, 5 + config.v()) } else { 0 };
    let partial = random.bytes(partial);
    let mut maker = Maker::new(random, seen, mood, config, kind != 0);
    if mood.fill && config.v() <= 64 {
        maker.fill();
    }
    let round = if kind == TIED { maker.random.within(20, 20 * config.n) } else { length };
    for event in 0..length {
        if kind == TIED && event % round == 0 {
            maker.on = maker.random.within(1, config.boards) as u8;
            maker.tie();
        }
        if noise { maker.noise() } else { maker.any() }
    }
    if mood.settle && !noise {
        maker.settle();
    }
    let mut list = maker.list;
    list.input.extend(partial);
    list
}

/// The configuration and the mood of a list of this kind.
fn drawn(random: &mut Random, kind: u64) -> (Config, Mood) {
    let config = match kind {
        0 => PROGRAM,
        1 => any_config(random),
        ADVERSE => small_config(random),
        CLEARING => clearing_config(random),
        TIED => tied_config(random),
        _ => shared_config(random),
    };
    let mood = match kind {
        ADVERSE | TIED => adverse(random, &config),
        CLEARING => clearing(random, &config),
        SHARED => sharing(random, &config),
        _ => any_mood(random, &config),
    };
    let restarts = random.chance(400);
    (config, if restarts { restarting(random, &config, mood) } else { mood })
}

/// No faults.
fn calm(random: &mut Random, config: &Config) -> Mood {
    Mood {
        begin: random.pick(&[20, 60, 150]),
        write: random.pick(&[300, 500, 700]),
        lose: 0,
        double: random.pick(&[0, 10]),
        crash_server: 0,
        crash_client: 0,
        restart: 0,
        junk: 10,
        crashes: config.n - config.q(),
        wait: 0,
        writers: config.d.max(1),
        alone: random.chance(200),
        order: random.pick(&[Order::Any, Order::Any, Order::Any, Order::First, Order::Last]),
        adverse: random.chance(500),
        boards: random.pick(&[0, 0, 0, 1, 2, 3]),
        whole: random.pick(&[100, 300, 600]),
        fill: false,
        settle: true,
        stay: random.pick(&[0, 500, 950]),
        no_crash: false,
    }
}

fn any_mood(random: &mut Random, config: &Config) -> Mood {
    let calm = calm(random, config);
    let mixed = Mood {
        lose: random.below(20),
        double: random.below(60),
        crash_server: random.below(8),
        crash_client: random.below(8),
        restart: random.below(20),
        junk: 20,
        writers: 16,
        ..calm
    };
    let heavy = Mood {
        lose: random.below(200),
        double: random.below(300),
        crash_server: random.below(60),
        crash_client: random.below(40),
        restart: random.below(60),
        junk: 150,
        crashes: config.n,
        settle: random.chance(500),
        ..mixed
    };
    let filling = Mood { double: random.below(500), lose: 5, begin: 100, fill: true, ..mixed };
    random.pick(&[calm, calm, mixed, mixed, heavy, filling])
}

/// The same with servers that crash and are started again, now and then more at once than a quorum can do without.
fn restarting(random: &mut Random, config: &Config, mood: Mood) -> Mood {
    let spare = config.n - config.q();
    Mood {
        crash_server: random.pick(&[5, 20, 60]),
        restart: random.pick(&[5, 20, 100]),
        crashes: random.pick(&[spare, spare + 1, config.n]),
        wait: random.pick(&[500, 950, 1000]),
        ..mood
    }
}

/// Out for histories without an order.
fn adverse(random: &mut Random, config: &Config) -> Mood {
    Mood {
        begin: random.pick(&[20, 100, 300]),
        write: random.pick(&[200, 400]),
        lose: random.pick(&[0, 5]),
        double: random.pick(&[0, 50]),
        crash_server: 0,
        crash_client: random.pick(&[0, 3]),
        writers: 4,
        alone: false,
        order: Order::Any,
        adverse: true,
        boards: 0,
        whole: random.pick(&[200, 800]),
        fill: false,
        settle: true,
        ..any_mood(random, config)
    }
}

/// Out for reads that ask again: many writes at once, and messages that come late.
fn clearing(random: &mut Random, config: &Config) -> Mood {
    Mood {
        begin: random.pick(&[100, 300]),
        write: random.pick(&[400, 600]),
        double: random.pick(&[0, 50, 400]),
        crash_client: random.pick(&[0, 0, 3]),
        junk: 10,
        adverse: random.chance(600),
        ..adverse(random, config)
    }
}

/// Out for 13: much is sent and doubled, and little is handed over or lost.
pub fn sharing(random: &mut Random, config: &Config) -> Mood {
    Mood {
        begin: random.pick(&[50, 150, 300]),
        lose: random.pick(&[0, 10, 100]),
        double: random.pick(&[0, 50, 300]),
        crash_server: random.pick(&[0, 0, 4]),
        crash_client: random.pick(&[0, 0, 4]),
        junk: random.pick(&[10, 60]),
        writers: 16,
        alone: false,
        fill: random.chance(300),
        settle: random.chance(700),
        ..any_mood(random, config)
    }
}

/// Servers that keep one or two elements. Now and then there is room for little more than what two clients send.
fn clearing_config(random: &mut Random) -> Config {
    let Config { n, k, e, .. } = small_config(random);
    let m = if random.chance(150) { random.within(3 * n, 8 * n) } else { 512 };
    let (d, c) = (random.pick(&[0, 0, 1]), random.within(3, 4));
    let config = Config { n, k, d, e, c, m, ranks: ranks(random, c), ..PROGRAM };
    on_boards(random, config, 300, 3)
}

/// Three or four clients that differ in rank, so that those of lower numbers often have the later tag.
fn tied_config(random: &mut Random) -> Config {
    let (d, c) = (random.below(3), random.within(3, 4));
    Config { d, c, ranks: mixed_ranks(random, c), ..small_config(random) }
}

/// Few servers, with room for all.
fn small_config(random: &mut Random) -> Config {
    let n = random.within(3, 6);
    let (k, d, e) = (random.within(1, n - 2), random.within(1, 4), random.within(1, 2));
    let c = random.within(2, 4);
    let config = Config { n, k, d, e, c, m: 512, ranks: ranks(random, c), ..PROGRAM };
    on_boards(random, config, 300, 3)
}

/// Several boards, and often little room for all of them together.
fn shared_config(random: &mut Random) -> Config {
    let n = random.within(1, 5);
    let (k, d, e) = (random.within(1, n.div_ceil(2)), random.below(4), random.within(1, 2));
    let (c, most) = (random.within(1, 4), random.pick(&[2, 2, 3, 4, 8]));
    let m = random.within(n, 16 * n * most).min(512);
    let config = Config { n, k, d, e, c, m, ranks: ranks(random, c), ..PROGRAM };
    on_boards(random, config, 1000, most)
}

/// The same with several boards, up to so many, in so many of 1000 draws; else with one. Shares are any.
fn on_boards(random: &mut Random, config: Config, of_1000: usize, most: usize) -> Config {
    let boards = if random.chance(of_1000) { random.within(2, most) } else { 1 };
    shared(config, &shares(random, boards, config.m))
}

/// None, or adding to M, or to any number in between; even, or anyhow, or all of one board.
fn shares(random: &mut Random, boards: usize, m: usize) -> Vec<usize> {
    let any = random.within(0, m);
    let whole = random.pick(&[0, m, any, any]);
    let mut cuts: Vec<usize> = match random.below(4) {
        0 => (0..=boards).map(|board| whole * board / boards).collect(),
        1 => {
            let first = random.within(1, boards);
            (0..=boards).map(|board| if board < first { 0 } else { whole }).collect()
        }
        _ => (1..boards).map(|_| random.within(0, whole)).chain([0, whole]).collect(),
    };
    cuts.sort();
    cuts.windows(2).map(|two| two[1] - two[0]).collect()
}

/// Mixed mostly, now and then all 0 or all the same.
fn ranks(random: &mut Random, c: usize) -> [u8; 16] {
    let mut ranks = [0; 16];
    match random.below(8) {
        0 => {}
        1 => ranks[..c].fill(random.within(1, 3) as u8),
        _ => ranks = mixed_ranks(random, c),
    }
    ranks
}

/// Any ranks, and in half of the draws falling ones.
fn mixed_ranks(random: &mut Random, c: usize) -> [u8; 16] {
    let mut ranks = [0; 16];
    ranks[..c].fill_with(|| random.below(4) as u8);
    if random.chance(500) {
        ranks.sort_by(|a, b| b.cmp(a));
    }
    ranks
}

/// Small numbers mostly, now and then any.
fn any_config(random: &mut Random) -> Config {
    let n = if random.chance(700) { random.within(1, 6) } else { random.within(1, 16) };
    let k = if random.chance(600) { random.within(1, n.div_ceil(2)) } else { random.within(1, n) };
    let e = random.pick(&[1, 1, 1, 2, 3, 5, 16, 63, 64]);
    let d = if random.chance(500) { random.below(3) } else { random.below(8) };
    let c = if random.chance(850) { random.within(1, 4) } else { random.within(5, 16) };
    let m = match random.below(4) {
        0 => random.within(n.max(2) - 1, 4 * n),
        1 => random.within(2 * n, 64),
        _ => random.within(64, 512),
    };
    let config = Config { n, k, d, e, c, m, ranks: ranks(random, c), ..PROGRAM };
    on_boards(random, config, if config.v() <= 64 { 400 } else { 100 }, if config.v() <= 64 { 8 } else { 2 })
}

/// A making that gets a number, or that is cut short.
fn refused(random: &mut Random) -> List {
    let config = any_config(random);
    let mut config = on_boards(random, config, 700, 8);
    let cut = random.chance(400);
    while !cut && (config.ask().is_ok() || random.chance(300)) {
        match random.below(16) {
            0 => config.n = random.pick(&[0, 17, 255]),
            1 => config.k = random.pick(&[0, config.n + 1, 17, 255]),
            2 => config.d = random.pick(&[8, 9, 255]),
            3 => config.e = random.pick(&[0, 65, 255]),
            4 => config.c = random.pick(&[0, 17, 255]),
            5 => config.m = random.pick(&[0, 513, 768, 65535]),
            6 | 7 => config.boards = random.pick(&[0, 9, 255]),
            8..=11 => shares_too_high(random, &mut config),
            _ => {
                let last = config.c.clamp(1, 16) - 1;
                let any = random.within(0, last);
                rank_too_high(random, &mut config, &[0, last, any]);
            }
        }
    }
    let input = if cut { cut_short(random, &mut config) } else { going_on(random, &config) };
    List { general: true, input, config, start: vec![], named: vec![] }
}

fn rank_too_high(random: &mut Random, config: &mut Config, places: &[usize]) {
    config.ranks[random.pick(places)] = random.pick(&[4, 4, 5, 255]);
}

/// One share is 1 above what the others leave of M, or more; or their sum is small in 16 bits alone.
fn shares_too_high(random: &mut Random, config: &mut Config) {
    let boards = config.boards.clamp(1, 8);
    let place = random.below(boards);
    let others: usize = (0..boards).filter(|other| *other != place).map(|other| config.shares[other]).sum();
    let least = (config.m + 1).saturating_sub(others).min(65535);
    let wraps = 65536_usize.saturating_sub(others.max(1)).min(65535);
    config.shares[place] = random.pick(&[least, least, wraps, 65535]);
}

/// Short of the header, of the ranks, of the number of boards, of the shares, or of the starting boards. A rank or a
/// share may be too high in a part that is cut.
fn cut_short(random: &mut Random, config: &mut Config) -> Vec<u8> {
    let ranks = 7 + config.c;
    let (shares, whole) = (head(config).len(), head(config).len() + config.boards * config.v());
    let parts = [(0, 7), (7, ranks), (7, ranks), (ranks, ranks + 1), (ranks + 1, shares), (shares, whole)];
    let (from, to) = random.pick(&parts);
    if to <= ranks && random.chance(600) {
        let last = config.c - 1;
        rank_too_high(random, config, &[0, 0, last]);
    } else if to == shares && random.chance(600) {
        config.shares[0] = random.pick(&[config.m + 1, 65535]);
    }
    let mut input = [head(config), random.bytes(config.boards * config.v())].concat();
    input.truncate(random.within(from, to - 1));
    input
}

/// What is read before a making is refused, or more.
fn going_on(random: &mut Random, config: &Config) -> Vec<u8> {
    if random.chance(300) {
        return head(config)[..read_part(config)].to_vec();
    }
    let more = random.below(3000);
    [head(config), random.bytes(more)].concat()
}

/// How much of the head is read before the question that refuses it.
fn read_part(config: &Config) -> usize {
    if config.ask_numbers().is_err() {
        7
    } else if config.ask_ranks().is_err() {
        7 + config.c
    } else if config.ask_boards().is_err() {
        8 + config.c
    } else {
        head(config).len()
    }
}

/// No faults, few writes at once.
fn busy(random: &mut Random, config: &Config) -> Mood {
    Mood {
        begin: 50,
        write: 500,
        lose: 0,
        double: 5,
        crash_server: 0,
        crash_client: 0,
        junk: 1,
        writers: config.d.max(1),
        alone: config.d == 0,
        order: Order::Any,
        adverse: false,
        boards: 0,
        whole: 300,
        stay: 0,
        ..any_mood(random, config)
    }
}

/// A long list in which operations go on ending.
pub fn long(seed: u64, config: Config, general: bool, events: usize, seen: &mut Seen) -> List {
    let random = &mut Random::new(seed, u64::MAX);
    let mood = busy(random, &config);
    so_many(Maker::new(random, seen, mood, config, general), events)
}

/// The same with servers that crash and are started again. No message goes to one that is down.
pub fn long_restarting(seed: u64, config: Config, general: bool, events: usize, seen: &mut Seen) -> List {
    let random = &mut Random::new(seed, u64::MAX - 3);
    let busy = busy(random, &config);
    let mood = Mood { crash_server: 20, restart: 40, crashes: config.n, wait: 1000, ..busy };
    so_many(Maker::new(random, seen, mood, config, general), events)
}

fn so_many(mut maker: Maker, events: usize) -> List {
    (0..events).for_each(|_| maker.any());
    maker.list
}

/// As many in flight as there can be, and more refused; then all is handed over. Boards have these shares.
pub fn full(seed: u64, shares: &[usize], seen: &mut Seen) -> List {
    let random = &mut Random::new(seed, u64::MAX - 2);
    let config = Config { n: 16, k: 8, d: 3, e: 2, c: 4, m: 512, ranks: ranks(random, 4), ..PROGRAM };
    let config = shared(config, shares);
    let mood = busy(random, &config);
    let mut maker = Maker::new(random, seen, mood, config, true);
    maker.fill();
    for board in 1..=config.boards as u8 {
        maker.on = board;
        (0..2 * config.n).for_each(|position| maker.position(5, position));
    }
    maker.settle();
    maker.list
}
