//! Random lists that meet the premises, call by call, or break one of them.
use super::account::{Account, Book, Level};
use super::{on_target, Broken, Draw, List, Op, Rect, Turn, CALLS, GUESTS, HEIGHT, WIDTH};
use crate::Rng;
use oracle::consts::*;
use ::port::clip::Corner;
use ::port::draw::{Settings, Stage};
use ::port::target::Scissor;

/// Textures that a guest writes: guest g has the names OWN g to OWN g + OWN - 1.
pub const OWN: usize = 2;
/// Textures that nobody writes; the last has a faulty record.
const SHARED: usize = 6;
/// The store's first bytes are for the guests' textures, the rest is for those that nobody writes.
const WRITABLE: usize = 4096;
const STORE: usize = WRITABLE + 2048;

const FAULTY: usize = OWN * GUESTS + SHARED - 1;

fn any_texture(rng: &mut Rng) -> usize {
    rng.below((OWN * GUESTS + SHARED) as u64) as usize
}

fn shared_texture(rng: &mut Rng) -> usize {
    OWN * GUESTS + rng.below(SHARED as u64 - 1) as usize
}

fn own_texture(rng: &mut Rng, guest: usize) -> usize {
    OWN * guest + rng.below(OWN as u64) as usize
}

const MIN_FILTERS: [u32; 6] = [
    GL_NEAREST,
    GL_LINEAR,
    GL_NEAREST_MIPMAP_NEAREST,
    GL_LINEAR_MIPMAP_NEAREST,
    GL_NEAREST_MIPMAP_LINEAR,
    GL_LINEAR_MIPMAP_LINEAR,
];
const MAG_FILTERS: [u32; 2] = [GL_NEAREST, GL_LINEAR];
const WRAPS: [u32; 2] = [GL_REPEAT, GL_CLAMP_TO_EDGE];

// ---- the start

/// A record of a chain of so many levels, one after the other from a place.
fn chain(rng: &mut Rng, place: usize, side: u32, levels: usize) -> Book {
    let mut book = Book::new();
    let (mut width, mut height) = (rng.between(1, i64::from(side)) as u32, rng.between(1, i64::from(side)) as u32);
    let mut at = place as u64;
    for k in 0..levels {
        book.levels[k] = Level { kept: true, width, height, place: at };
        at += book.levels[k].len() as u64;
        if (width, height) == (1, 1) {
            break;
        }
        (width, height) = ((width / 2).max(1), (height / 2).max(1));
    }
    book.top = book.chain_top();
    book.codes = [rng.pick(&MIN_FILTERS), rng.pick(&MAG_FILTERS), rng.pick(&WRAPS), rng.pick(&WRAPS)];
    book
}

/// One of the four faults of 8.
fn faulty(rng: &mut Rng, mut book: Book) -> Book {
    let level = &mut book.levels[0];
    *level = Level { kept: true, width: 2, height: 2, place: 0 };
    match rng.below(4) {
        0 => level.place = STORE as u64 - 15,
        1 => book.levels[5] = Level { kept: true, width: 1, height: 1, place: 12 },
        2 => (level.width, level.height) = (1025, 0),
        _ => book.top = book.chain_top() + 1,
    }
    if book.valid(STORE) {
        book.top = 9;
    }
    book
}

/// The records at the start: some of the guests' have levels over bytes that nobody wrote, some are faulty.
fn books(rng: &mut Rng) -> Vec<Book> {
    let mut books = Vec::new();
    for _ in 0..OWN * GUESTS {
        let place = rng.below(WRITABLE as u64 - 400) as usize;
        let levels = rng.between(1, 4) as usize;
        let book = chain(rng, place, 8, levels);
        books.push(match rng.below(12) {
            0 => faulty(rng, book),
            1..=3 => book,
            _ => Book::new(),
        });
    }
    for k in 0..SHARED {
        let book = chain(rng, WRITABLE + 340 * k, 8, 1 + 3 * (k % 2));
        books.push(if OWN * GUESTS + k == FAULTY { faulty(rng, book) } else { book });
    }
    books
}

/// Boxes that have no pixel of the target; the first two have none of any.
const NOWHERE: [Rect; 6] = [(5, 5, 0, 7), (9, 3, 4, -2), (-30, 0, 30, 40), (64, 2, 9, 9), (0, 40, 64, 8192), (8192, 8192, 8192, 8192)];

/// Forty windows that share no pixel: the target cut in parts, some a little smaller, some past the edges; the rest have no pixel.
fn windows(rng: &mut Rng, fits: bool) -> Vec<Rect> {
    let parts = rng.pick(&[1, 3, 20, 34, 36, 38, 38, 40, 40, 40]);
    let mut cells: Vec<Rect> = vec![(0, 0, WIDTH as i32, HEIGHT as i32)];
    while cells.len() < parts {
        let i = (0..3).map(|_| rng.below(cells.len() as u64) as usize).max_by_key(|&i| cells[i].2 * cells[i].3).unwrap();
        let (x, y, w, h) = cells[i];
        if w.max(h) < 3 {
            continue;
        }
        if w > h || (w == h && rng.bool()) {
            let cut = rng.between(1 + i64::from(w) / 4, i64::from(w) - 1 - i64::from(w) / 4) as i32;
            cells[i] = (x, y, cut, h);
            cells.push((x + cut, y, w - cut, h));
        } else {
            let cut = rng.between(1 + i64::from(h) / 4, i64::from(h) - 1 - i64::from(h) / 4) as i32;
            cells[i] = (x, y, w, cut);
            cells.push((x, y + cut, w, h - cut));
        }
    }
    let mut windows: Vec<Rect> = cells
        .into_iter()
        .map(|(mut x, mut y, mut w, mut h)| {
            if parts > 1 && rng.chance(1, 3) && w > 2 && h > 2 {
                let (dx, dy) = (rng.below(2) as i32, rng.below(2) as i32);
                (x, y, w, h) = (x + dx, y + dy, w - 1, h - 1);
            }
            past_edges(rng, (x, y, w, h))
        })
        .collect();
    while windows.len() < GUESTS {
        windows.push(rng.pick(if fits { &NOWHERE } else { &NOWHERE[..2] }));
    }
    for i in (1..GUESTS).rev() {
        windows.swap(i, rng.below(i as u64 + 1) as usize);
    }
    windows
}

/// The same pixels of the target: sides at its edges may reach past them.
fn past_edges(rng: &mut Rng, (mut x, mut y, mut w, mut h): Rect) -> Rect {
    let more = |rng: &mut Rng| if rng.bool() { 0 } else { rng.pick(&[1, 3, 20, 4000]) };
    if x == 0 {
        let n = more(rng);
        (x, w) = (x - n, w + n);
    }
    if y == 0 {
        let n = more(rng);
        (y, h) = (y - n, h + n);
    }
    if i64::from(x) + i64::from(w) == i64::from(WIDTH) {
        w += more(rng);
    }
    if i64::from(y) + i64::from(h) == i64::from(HEIGHT) {
        h += more(rng);
    }
    (x, y, w, h)
}

/// Sides and lengths; unless it fits, ones that 1 refuses.
fn target(rng: &mut Rng, fits: bool) -> (u32, u32, usize, usize) {
    let pixels = (WIDTH * HEIGHT) as usize;
    if fits {
        return (WIDTH, HEIGHT, 4 * pixels, pixels);
    }
    match rng.below(7) {
        0 => (4097, 1, 4 * 4097, 4097),
        1 => (1, 4097, 4 * 4097, 4097),
        2 => (WIDTH, HEIGHT, 4 * pixels - 1, pixels),
        3 => (WIDTH, HEIGHT, 4 * pixels, pixels + 1),
        4 => (WIDTH + 1, HEIGHT, 4 * pixels, pixels),
        5 => (u32::MAX, u32::MAX, 4 * pixels, pixels),
        _ => (65_536, 65_536, 0, 0),
    }
}

// ---- calls

/// The making of a list.
struct Maker {
    account: Account,
    broken: Option<Broken>,
    /// Guests that make most of the calls.
    busy: Vec<usize>,
}

const PAST: [i32; 4] = [8193, -8193, i32::MAX, i32::MIN];
const NOT_BOUNDED: [f32; 5] = [f32::NAN, f32::INFINITY, f32::NEG_INFINITY, 1048577.0, -2e6];

impl Maker {
    fn breaks(&self, rng: &mut Rng, broken: Broken) -> bool {
        self.broken == Some(broken) && rng.chance(1, 3)
    }

    /// A box within the guest's window.
    fn scissor(&self, rng: &mut Rng, guest: usize) -> Scissor {
        let of = if self.breaks(rng, Broken::Boxes) { rng.pick(&self.busy) } else { guest };
        let window = self.account.windows[of];
        let Some([left, right, low, high]) = on_target(window, WIDTH, HEIGHT) else { return Some(rng.pick(&NOWHERE)) };
        if (right - left, high - low) == (i64::from(WIDTH), i64::from(HEIGHT)) && rng.chance(1, 3) {
            return None;
        }
        match rng.below(24) {
            0 => Some(rng.pick(&NOWHERE)),
            1..=14 => Some(window),
            _ => {
                let (x, y) = (rng.between(left, right - 1), rng.between(low, high - 1));
                let (w, h) = (rng.between(1, right - x), rng.between(1, high - y));
                Some(past_edges(rng, (x as i32, y as i32, w as i32, h as i32)))
            }
        }
    }

    fn clear_scissor(&self, rng: &mut Rng, guest: usize) -> Scissor {
        let scissor = self.scissor(rng, guest);
        if rng.chance(1, 12) { Some(past_number(rng, scissor)) } else { scissor }
    }

    /// The guest's own textures that it may draw with.
    fn readable(&self, guest: usize) -> Vec<usize> {
        let free = self.broken == Some(Broken::Bytes);
        let may = |name: usize| self.account.books[name].valid(STORE) && (free || self.account.may_read(guest, name));
        (OWN * guest..OWN * guest + OWN).filter(|&name| may(name)).collect()
    }

    fn draw(&self, rng: &mut Rng, guest: usize) -> Op {
        let mut own = self.readable(guest);
        if ![Some(Broken::Textures), Some(Broken::Records)].contains(&self.broken) && rng.chance(7, 8) {
            own.retain(|&name| self.account.books[name].levels[0].complete() || self.account.renewed[name]);
        }
        let names = std::array::from_fn(|_| if !own.is_empty() && rng.chance(4, 5) { rng.pick(&own) } else { shared_texture(rng) });
        let mut stages: Vec<Stage> = (0..rng.pick(&[0, 0, 1, 1, 1, 1, 1, 2, 2, 3, 4])).map(|_| stage(rng)).collect();
        let scissor = self.scissor(rng, guest);
        let mut settings = settings(rng, scissor, self.account.windows[guest]);
        let mut corners = corners(rng);
        let mut units = names;
        let fault = if rng.chance(1, 10) { rng.between(2, 8) } else { 0 };
        match fault {
            2 => (settings.boxed, settings.scissor) = (true, past_number(rng, scissor)),
            3 => {
                let v = &mut settings.viewport;
                match rng.below(4) {
                    0 => v.0 = rng.pick(&PAST),
                    1 => v.1 = rng.pick(&PAST),
                    2 => v.2 = rng.pick(&[4097, i32::MAX]),
                    _ => v.3 = rng.pick(&[4097, i32::MAX]),
                }
            }
            4 => {
                let x = rng.pick(&NOT_BOUNDED);
                match rng.below(7) {
                    0 => settings.depth_range.0 = x,
                    1 => settings.depth_range.1 = x,
                    2 => settings.alpha_ref = x,
                    3 => settings.fog_color[rng.below(4) as usize] = x,
                    4 => settings.fog_start = x,
                    5 => settings.fog_end = x,
                    _ => settings.fog_density = x,
                }
            }
            5 => corners[rng.below(3) as usize][rng.below(17) as usize] = rng.pick(&NOT_BOUNDED),
            6 => {
                stages.push(stage(rng));
                match rng.below(3) {
                    0 => stages.resize(5, stages[0]),
                    1 => stages[0].unit = rng.pick(&[4, 5, u32::MAX]),
                    _ => stages[0].env_color[rng.below(4) as usize] = rng.pick(&NOT_BOUNDED),
                }
            }
            7 => (settings.fog, settings.fog_mode) = (true, rng.pick(&[0x0800, 0x0801])),
            8 => {
                stages.truncate(3);
                stages.push(stage(rng));
                units[stages[0].unit as usize] = FAULTY;
            }
            _ => {}
        }
        // Records that the draw does not read may be anybody's: where no stage names the unit, and where it is refused before 8.
        let unread = [2, 3, 4, 6, 7].contains(&fault) || !self.account.fits;
        for unit in 0..4 {
            if (unread || stages.iter().all(|stage| stage.unit != unit as u32)) && rng.chance(1, 3) {
                units[unit] = any_texture(rng);
            }
        }
        Op::Draw(Box::new(Draw { units, settings, stages, corners }))
    }

    fn define(&self, rng: &mut Rng, guest: usize) -> Op {
        let mut texture = own_texture(rng, guest);
        let book = &self.account.books[texture];
        // A level whose bytes another has taken, the chain's next level, level 0, or any.
        let lost = book.levels.iter().position(|level| !self.account.may_read_level(guest, level));
        let top = book.top.min(9) as usize;
        let next = book.levels[top].complete() && (book.levels[top].width, book.levels[top].height) != (1, 1);
        let mut level = match rng.below(8) {
            0..=2 if lost.is_some() => lost.unwrap_or(0),
            3 | 4 if next => top + 1,
            7 => rng.below(5) as usize,
            _ => 0,
        } as u32;
        let (mut width, mut height) = (rng.pick(&[1, 2, 3, 4, 5, 8]), rng.pick(&[1, 2, 3, 4, 5, 8]));
        if level > 0 && rng.chance(7, 8) {
            let last = &book.levels[level as usize - 1];
            (width, height) = ((last.width.min(16) / 2).max(1), (last.height.min(16) / 2).max(1));
        }
        if rng.chance(1, 24) {
            width = 0;
        }
        // Level 0 just over another guest's, often.
        let other = rng.pick(&self.busy);
        let theirs = self.account.books[own_texture(rng, other)].levels[0];
        let over = level == 0 && other != guest && theirs.complete() && theirs.len() <= 256 && rng.bool();
        if over {
            (width, height) = (theirs.width, theirs.height);
        }
        let mut bytes = (4 * width * height) as usize;
        // Its old place, one of another guest's, or any.
        let mut place = 0;
        for _ in 0..6 {
            place = match rng.below(4) {
                _ if over && place == 0 => theirs.place as usize,
                0 => book.levels[level as usize].place as usize,
                1 | 2 => {
                    let other = rng.pick(&self.busy);
                    self.account.books[own_texture(rng, other)].levels[rng.below(2) as usize].place as usize
                }
                _ => rng.below(WRITABLE as u64) as usize,
            }
            .min(WRITABLE - bytes);
            if self.account.define_number(texture, level, width, height, place, bytes) == 0 {
                break;
            }
        }
        if rng.chance(1, 5) {
            match rng.below(5) {
                0 => {
                    texture = any_texture(rng);
                    if rng.bool() { level = rng.pick(&[11, 12, u32::MAX]) } else { width = 1025 }
                }
                1 => bytes = if bytes > 0 && rng.bool() { bytes - 1 } else { bytes + 4 },
                2 => place = rng.pick(&[STORE - bytes + 1, STORE + 1, usize::MAX, usize::MAX - 3]),
                // Over another level of the same texture, which stays.
                3 => {
                    let stays = |k: u32| k != level && (level == 0 || k < level);
                    let of = book.levels.iter().zip(0..).find(|(of, k)| of.complete() && stays(*k));
                    place = of.map_or(STORE + 1, |(of, _)| (of.place as usize).min(WRITABLE));
                }
                _ => texture = FAULTY,
            }
        }
        let image = rng.bytes(bytes);
        Op::Define { texture, level, width, height, place, image }
    }

    fn patch(&self, rng: &mut Rng, guest: usize) -> Op {
        let mut texture = own_texture(rng, guest);
        let book = &self.account.books[texture];
        let mut level = if rng.chance(1, 3) { rng.below(book.top.min(9) + 1) as u32 } else { 0 };
        let of = book.levels[level as usize];
        let part = |rng: &mut Rng, side: u32| {
            let start = rng.below(u64::from(side.min(16)) + 1) as u32;
            (start, rng.below(u64::from(side.min(16) - start) + 1) as u32)
        };
        let ((x, width), (y, height)) = (part(rng, of.width), part(rng, of.height));
        let mut rect = [x, y, width, height];
        let mut bytes = (4 * width * height) as usize + rng.pick(&[0, 0, 1, 8]);
        if rng.chance(1, 4) {
            // A refused patch only reads its texture, which may be one that nobody writes.
            let reads = rng.bool();
            if reads {
                texture = shared_texture(rng);
            }
            match rng.below(4) {
                0 => level = rng.pick(&[6, 9, 10, 11, u32::MAX]),
                1 => rect[rng.below(4) as usize] = rng.pick(&[9, 1025, u32::MAX]),
                2 => {
                    let of = self.account.books[texture].levels[0];
                    (level, rect, bytes) = (0, [0, 0, of.width.min(16), of.height.min(16)], 0);
                    if of.len() == 0 {
                        rect[0] = 9;
                    }
                }
                _ => texture = FAULTY,
            }
        }
        let image = rng.bytes(bytes);
        Op::Patch { texture, level, rect, image }
    }

    fn set(&self, rng: &mut Rng, guest: usize) -> Op {
        let texture = own_texture(rng, guest);
        if rng.chance(1, 5) {
            let unknown = [(GL_TEXTURE_MIN_FILTER, 0), (GL_TEXTURE_MAG_FILTER, 0x2700), (GL_TEXTURE_WRAP_S, 0x2900), (0, 0x2600), (0x8191, 1)];
            let (pname, value) = rng.pick(&unknown);
            return Op::Set { texture: any_texture(rng), pname, value };
        }
        let (pname, value) = match rng.below(5) {
            0 => (GL_TEXTURE_MIN_FILTER, rng.pick(&MIN_FILTERS)),
            1 => (GL_TEXTURE_MAG_FILTER, rng.pick(&MAG_FILTERS)),
            2 => (GL_TEXTURE_WRAP_S, rng.pick(&WRAPS)),
            3 => (GL_TEXTURE_WRAP_T, rng.pick(&WRAPS)),
            _ => (rng.pick(&[0x813A, 0x813B, 0x813C, 0x813D, 0x8501]), rng.u32()),
        };
        Op::Set { texture, pname, value }
    }

    /// A call by the guest that changes another's texture and none of its bytes.
    fn meddle(&self, rng: &mut Rng, guest: usize) -> Op {
        let textures: Vec<usize> = self.busy.iter().filter(|&&other| other != guest).map(|&other| own_texture(rng, other)).collect();
        let texture = if textures.is_empty() { own_texture(rng, (guest + 1) % GUESTS) } else { rng.pick(&textures) };
        match rng.below(4) {
            0 => Op::Set { texture, pname: GL_TEXTURE_WRAP_S, value: rng.pick(&WRAPS) },
            1 => Op::Set { texture, pname: GL_TEXTURE_MAG_FILTER, value: rng.pick(&MAG_FILTERS) },
            _ => Op::Define { texture, level: 0, width: 0, height: 0, place: 0, image: Vec::new() },
        }
    }

    /// A new record of another's texture, a defined one where there is one.
    fn renew_another(&self, rng: &mut Rng, guest: usize) -> Op {
        let textures: Vec<usize> = (0..OWN * GUESTS).filter(|name| name / OWN != guest && self.busy.contains(&(name / OWN))).collect();
        let defined: Vec<usize> = textures.iter().copied().filter(|&name| self.account.books[name].levels[0].complete()).collect();
        let texture = if !defined.is_empty() { rng.pick(&defined) } else { own_texture(rng, (guest + 1) % GUESTS) };
        Op::New { texture }
    }

    fn op(&self, rng: &mut Rng, guest: usize) -> Op {
        if self.breaks(rng, Broken::Textures) {
            return self.meddle(rng, guest);
        }
        if self.breaks(rng, Broken::Records) {
            return self.renew_another(rng, guest);
        }
        match rng.below(22) {
            0 | 1 => Op::ClearColor { rgba: std::array::from_fn(|_| rng.u8()), scissor: self.clear_scissor(rng, guest) },
            2 | 3 => {
                let value = if rng.chance(1, 8) { rng.pick(&NOT_BOUNDED) } else { rng.float(0.0, 1.25) };
                Op::ClearDepth { value, scissor: self.clear_scissor(rng, guest) }
            }
            4..=8 => self.define(rng, guest),
            9 | 10 => self.patch(rng, guest),
            11 => self.set(rng, guest),
            12 => Op::New { texture: own_texture(rng, guest) },
            _ => self.draw(rng, guest),
        }
    }
}

/// A box with a number that 2 refuses.
fn past_number(rng: &mut Rng, scissor: Scissor) -> Rect {
    let (x, y, w, h) = scissor.unwrap_or((0, 0, 9, 9));
    let mut numbers = [x, y, w, h];
    numbers[rng.below(4) as usize] = rng.pick(&PAST);
    let [x, y, w, h] = numbers;
    (x, y, w, h)
}

fn stage(rng: &mut Rng) -> Stage {
    let env = rng.pick(&[0x2100, 0x1E01, 0x2101, 0x0BE2, 0x0104]);
    Stage { unit: rng.below(4) as u32, env, env_color: std::array::from_fn(|_| rng.unit()) }
}

/// Settings under which most draws within the window write pixels.
fn settings(rng: &mut Rng, scissor: Scissor, window: Rect) -> Settings {
    let whole = (0, 0, WIDTH as i32, HEIGHT as i32);
    let viewport = match (rng.below(8), on_target(window, WIDTH, HEIGHT)) {
        (3.., Some([left, right, low, high])) => (left as i32, low as i32, (right - left) as i32, (high - low) as i32),
        (0, _) => (rng.between(-20, 20) as i32, rng.between(-20, 20) as i32, rng.between(0, 100) as i32, rng.between(0, 80) as i32),
        _ => whole,
    };
    let factors = [0, 1, 0x0300, 0x0301, 0x0302, 0x0303, 0x0304, 0x0305, 0x0306, 0x0307];
    Settings {
        viewport,
        depth_range: if rng.chance(3, 4) { (0.0, 1.0) } else { (rng.unit(), rng.unit()) },
        boxed: scissor.is_some(),
        scissor: scissor.unwrap_or_default(),
        depth_test: rng.chance(1, 5),
        depth_func: 0x0200 + rng.below(8) as u32,
        depth_write: rng.chance(3, 4),
        alpha_test: rng.chance(1, 10),
        alpha_func: 0x0200 + rng.below(8) as u32,
        alpha_ref: rng.unit(),
        blend: rng.chance(1, 4),
        blend_src: rng.pick(&factors),
        blend_dst: rng.pick(&factors),
        cull: if rng.chance(1, 8) { rng.pick(&[0x0404, 0x0405, 0x0408]) } else { 0 },
        front_face: rng.pick(&[0x0900, 0x0901]),
        color_mask: std::array::from_fn(|_| rng.chance(7, 8)),
        fog: rng.chance(1, 6),
        fog_mode: 0x2601,
        fog_color: std::array::from_fn(|_| rng.unit()),
        fog_start: rng.unit(),
        fog_end: rng.float(0.0, 2.0),
        fog_density: rng.unit(),
        smooth_shading: rng.chance(3, 4),
        on: 1,
    }
}

/// A triangle over the whole viewport and past it, or any three corners about it.
fn corners(rng: &mut Rng) -> [Corner; 3] {
    let wide = rng.float(2.5, 4.0);
    let mut places = [[-1.05, -1.05], [wide, -1.05], [-1.05, wide]];
    if rng.chance(1, 6) {
        places = std::array::from_fn(|_| std::array::from_fn(|_| rng.float(-1.4, 1.4)));
    }
    if rng.bool() {
        places.swap(1, 2);
    }
    let deep = if rng.chance(1, 6) { 1.6 } else { 0.95 };
    let even = rng.bool();
    let scale = rng.pick(&[0.5, 1.0, 1.0, 2.0, 6.0]);
    places.map(|[x, y]| {
        let w = if even { 1.0 } else { rng.float(0.4, 2.0) };
        let mut corner: Corner = std::array::from_fn(|_| rng.unit());
        let z = rng.float(-deep, deep);
        corner[..4].copy_from_slice(&[x * w, y * w, z * w, w]);
        for coordinate in &mut corner[8..16] {
            *coordinate = (*coordinate * 1.5 - 0.25) * scale;
        }
        corner
    })
}

/// A list of 200 calls; `fits` unless 1 is to refuse the target; with `broken` one premise is not kept to.
pub fn list(rng: &mut Rng, fits: bool, broken: Option<Broken>) -> List {
    let (width, height, colors, depths) = target(rng, fits);
    let (seed, books, windows) = (rng.u64(), books(rng), windows(rng, fits));
    let mut list = List { seed, width, height, colors, depths, store: STORE, books, windows, turns: Vec::new() };
    // Most of the busy guests have some pixels.
    let seen: Vec<usize> = (0..GUESTS).filter(|&g| on_target(list.windows[g], WIDTH, HEIGHT).is_some()).collect();
    let mut busy: Vec<usize> = (0..6).map(|_| rng.pick(&seen)).collect();
    busy.push((busy[0] + 1) % GUESTS);
    if broken == Some(Broken::Windows) {
        let one = busy[0];
        list.windows[(one + 1) % GUESTS] = list.windows[one];
    }
    let mut maker = Maker { account: Account::new(&list), broken, busy };
    while list.turns.len() < CALLS {
        let guest = match list.turns.last() {
            Some(turn) if rng.chance(1, 4) => turn.guest,
            _ if rng.chance(3, 4) => rng.pick(&maker.busy),
            _ if rng.bool() => rng.pick(&seen),
            _ => rng.below(GUESTS as u64) as usize,
        };
        let turn = Turn { guest, op: maker.op(rng, guest) };
        maker.account.step(&turn);
        list.turns.push(turn);
    }
    list
}
